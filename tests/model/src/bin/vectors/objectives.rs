//! The lists of objectives with their answers: complete ones from the oracle,
//! budgets from the model.
use crate::lists::{told_apart, Lists};
use crate::named::{complete, cut_short, line, parsed};
use crate::refusals::raw;
use model::generator::{any_size, crowded, objective};
use model::objective::Objective;
use model::random::Random;
use model::run::{reduce, Reduction};
use model::text::{graph_and_steps, list, with_semicolons, written};
use model::told::{counts, told};
use model::wrong::{RUN, UNITS};

const SEED: u64 = 20;
const DRAWN: usize = 1600;
const AT_64: usize = 60;
const CROWDED: usize = 8;

/// The named ones, those at n 64, the drawn ones, and last the crowded ones.
pub fn questions() -> String {
    let mut lines: Vec<String> = complete().into_iter().map(|(_, line)| line).collect();
    let mut random = Random(SEED);
    for k in 0..DRAWN + AT_64 {
        lines.push(drawn(&mut random, k < AT_64));
    }
    while lines.len() < complete().len() + DRAWN + AT_64 + CROWDED {
        let o = crowded(&mut random);
        if reduce(&o).unwrap().steps.len() > 3 {
            lines.push(line(&o));
        }
    }
    lines.into_iter().map(|line| line + "\n").collect()
}

/// An objective of moderate length that takes a step, or one in twenty that does not.
fn drawn(random: &mut Random, at_64: bool) -> String {
    loop {
        let n = if at_64 { 64 } else { any_size(random) };
        let mut o = objective(random, n);
        let reduction = reduce(&o).unwrap();
        let wanted = !reduction.steps.is_empty() || random.chance(5);
        o.budget = random.pick(&[reduction.units, reduction.units + 1, u32::MAX, 4160]);
        let length = line(&o).len() + written(&reduction).len();
        if wanted && length < if at_64 { 4000 } else { 1500 } {
            return line(&o);
        }
    }
}

/// The objective, the text written for it, and the counts with the takes last.
fn entry(o: &Objective, reduction: &Reduction) -> [String; 3] {
    let counts = counts(&reduction.counts).into_iter().chain([reduction.counts.takes]);
    [line(o), with_semicolons(&written(reduction)), list("", counts).trim_start().to_string()]
}

/// Every line that the Rust has a say in is the oracle's; the units and takes,
/// and all of an answer of `none`, are the model's.
fn entry_of_oracle(o: &Objective, answer: &str) -> [String; 3] {
    let reduction = reduce(o).unwrap();
    assert!(reduction.complete);
    let mut three = entry(o, &reduction);
    if answer == "none" {
        assert!(reduction.steps.is_empty());
        return three;
    }
    assert_eq!(told(&reduction), answer);
    let (graph, rest) = answer.split_once("counts ").unwrap();
    let oracle_counts = rest.split(';').next().unwrap();
    three[1] = format!("{graph}units {} complete yes;", reduction.units);
    three[2] = format!("{oracle_counts} {}", reduction.counts.takes);
    three
}

pub fn objectives(out: &mut Lists, questions: &str, answers: &str) {
    let asked: Vec<Objective> = questions.lines().map(parsed).collect();
    let answers: Vec<&str> = answers.lines().collect();
    assert_eq!(asked.len(), answers.len());
    let entries: Vec<[String; 3]> =
        asked.iter().zip(&answers).map(|(o, answer)| entry_of_oracle(o, answer)).collect();
    let short = asked.len() - CROWDED;
    out.file("objectives.txt", short, &entries[..short].concat());
    println!("  at n 64 {}", asked[..short].iter().filter(|o| o.n == 64).count());
    println!("  no step taken {}", answers[..short].iter().filter(|a| **a == "none").count());
    reached(&asked[..short]);
    for (k, (name, _)) in complete().iter().enumerate() {
        println!("  entry {}: {name}", k + 1);
    }
    told_apart(&[RUN], 2, || asked[..short].iter().map(|o| entry(o, &reduce(o).unwrap())));
    let mut crowd = entries[short..].to_vec();
    for (three, o) in crowd.iter_mut().zip(&asked[short..]) {
        three[0] = raw(o, 64, 4096, 0);
    }
    out.file("crowded.txt", CROWDED, &crowd.concat());
    let terms: Vec<String> = asked[short..].iter().map(|o| o.firsts.len().to_string()).collect();
    println!("  terms {}", terms.join(" "));
}

/// The counts that show each branch of the run to be reached.
fn reached(asked: &[Objective]) {
    let names = [
        "eliminated",
        "degree three",
        "skipped",
        "contracted",
        "weak",
        "additional fixed",
        "remaining",
        "a second pass",
        "blocks",
        "block variables",
    ];
    for (k, name) in names.iter().enumerate() {
        let over = |o: &&Objective| counts(&reduce(o).unwrap().counts)[k] > u32::from(k == 7);
        println!("  entries with {name}: {}", asked.iter().filter(over).count());
    }
}

/// Around the units each objective needs; cut short below them.
fn around(random: &mut Random, at_64: bool, blocks: u32) -> Vec<Objective> {
    loop {
        let n = if at_64 { 64 } else { any_size(random) };
        let o = objective(random, n);
        let reduction = reduce(&o).unwrap();
        let length = line(&o).len() + graph_and_steps(&reduction).len();
        let plain = reduction.units < 3 || reduction.counts.blocks_eliminated < blocks;
        if plain || length > if at_64 { 3000 } else { 900 } {
            continue;
        }
        let units = reduction.units;
        let mut budgets = vec![0, 1, units / 2, units - 1, units, units + 1, u32::MAX];
        budgets.dedup();
        return budgets.into_iter().map(|budget| Objective { budget, ..o.clone() }).collect();
    }
}

pub fn budgets(out: &mut Lists) {
    let mut asked: Vec<Objective> = cut_short().iter().map(|(_, line)| parsed(line)).collect();
    let mut random = Random(SEED + 1);
    for k in 0..70 {
        asked.extend(around(&mut random, k < 6, if k % 3 == 0 { 2 } else { 0 }));
    }
    let entries = || asked.iter().map(|o| entry(o, &reduce(o).unwrap()));
    out.file("budgets.txt", asked.len(), &entries().collect::<Vec<_>>().concat());
    println!("  cut short {}", asked.iter().filter(|o| !reduce(o).unwrap().complete).count());
    for (k, (name, _)) in cut_short().iter().enumerate() {
        println!("  entry {}: {name}", k + 1);
    }
    told_apart(&[UNITS], 2, entries);
}
