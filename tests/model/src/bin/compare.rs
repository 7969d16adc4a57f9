//! compare OBJECTIVES ANSWERS: holds the model against the oracle's answers to
//! the same objectives, then each wrong variant of the model. Ends in failure if
//! the model differs anywhere or a wrong variant differs nowhere.
use model::graph::Graph;
use model::objective::Objective;
use model::run::{reduce, Reduction};
use model::told::told;
use model::wrong::{choose, Wrong, RUN};
use std::collections::BTreeMap;
use std::fs::read_to_string;
use std::process::ExitCode;

fn main() -> ExitCode {
    let args: Vec<String> = std::env::args().skip(1).collect();
    let objectives = read_to_string(&args[0]).unwrap();
    let answers = read_to_string(&args[1]).unwrap();
    let asked: Vec<(&str, Objective)> = objectives.lines().map(|l| (l, parsed(l))).collect();
    let answers: Vec<&str> = answers.lines().collect();
    assert_eq!(asked.len(), answers.len(), "one answer for each objective");
    say_what_was_compared(&asked, &answers);
    let differing = differences(&asked, &answers, true);
    println!("differences {differing}");
    let mut silent = 0;
    for &(variant, says) in RUN {
        choose(variant);
        let count = differences(&asked, &answers, false);
        silent += usize::from(count == 0);
        println!("wrong variant: {says}: {count} differ");
    }
    choose(Wrong::None);
    println!("wrong variants {}, of them without a difference {silent}", RUN.len());
    if differing + silent == 0 {
        ExitCode::SUCCESS
    } else {
        ExitCode::FAILURE
    }
}

fn parsed(line: &str) -> Objective {
    let text = line.replace(';', "\n");
    model::text::read_within(text.as_bytes(), 1 << 20, 4096).expect("a well-formed objective")
}

fn differences(asked: &[(&str, Objective)], answers: &[&str], show: bool) -> usize {
    let mut count = 0;
    for ((line, o), answer) in asked.iter().zip(answers) {
        let reduction = reduce(o).expect("an objective that is not refused");
        let ours = told(&reduction);
        // Where the Rust answers None there is nothing to compare but this: no step
        // was taken, so the graph handed back is the fixed one.
        let same = ours == *answer && (ours != "none" || is_fixed_graph(o, &reduction));
        if !same {
            count += 1;
            if show && count <= 5 {
                println!("objective {line}\n  oracle {answer}\n  model  {ours}");
            }
        }
    }
    count
}

fn is_fixed_graph(o: &Objective, reduction: &Reduction) -> bool {
    let mut graph = Graph::built(o);
    graph.fix_all(&o.fixings);
    let places = graph.remaining();
    let edge = |k: usize| {
        let (i, j) = (places.get(k / 64), places.get(k % 64));
        i.zip(j).map_or(0, |(&i, &j)| graph.edges[i][j])
    };
    graph.constant == reduction.constant
        && places == reduction.remaining
        && (0..64).all(|k| reduction.linear[k] == places.get(k).map_or(0, |&i| graph.linear[i]))
        && (0..4096).all(|k| reduction.edges[k] == edge(k))
}

fn say_what_was_compared(asked: &[(&str, Objective)], answers: &[&str]) {
    println!("objectives {}", asked.len());
    println!("answered none {}", answers.iter().filter(|a| **a == "none").count());
    let mut by_switches: BTreeMap<u32, usize> = BTreeMap::new();
    let mut at_most = [0; 65];
    let mut largest = 0;
    for (_, o) in asked {
        *by_switches.entry(o.switches).or_default() += 1;
        at_most[o.n as usize] += 1;
        largest += usize::from(o.total() == 1 << 40);
    }
    println!("by switches {by_switches:?}");
    println!("sizes met {}, at n 64 {}", at_most.iter().filter(|c| **c > 0).count(), at_most[64]);
    println!("total weight exactly 2^40 {largest}");
    println!("over 1,024 terms {}", asked.iter().filter(|(_, o)| o.firsts.len() > 1024).count());
    let names = [
        "eliminated",
        "degree three eliminated",
        "degree three skipped",
        "contracted",
        "weak",
        "additional fixed",
        "remaining",
        "passes over 1",
        "blocks",
        "block variables",
    ];
    let mut met = [0usize; 10];
    for answer in answers {
        let Some(counts) = answer.split(';').find_map(|p| p.strip_prefix("counts ")) else {
            continue;
        };
        for (k, word) in counts.split(' ').enumerate() {
            met[k] += usize::from(word.parse::<usize>().unwrap() > usize::from(k == 7));
        }
    }
    for (name, met) in names.iter().zip(met) {
        println!("objectives with {name}: {met}");
    }
}
