//! walks FOLDER: drawn reductions as a program that calls walk_back, and what it has to write.
//! FOLDER gets src/main.rt and stdout; the expectation is the model's growing back.
use model::back::grow_back;
use model::generator::{any_size, objective};
use model::random::Random;
use model::record::Record;
use model::run::reduce;
use std::fmt::Write;
use std::fs::write;

const CASES: usize = 60;

const SHOW: &str = "#![tactic(auto)]

use std::io;
use std::io::Write;

fn step(decision: u8, degree: u8, first: u8, second: u8, third: u8, choices: u8) -> rules::Step {
    rules::Step { decision, degree, first, second, third, choices }
}

fn show(rt: &HostRuntime, steps: &[rules::Step], plan: [u8; 64]) -> io::Result<()> {
    let mut out = walk_back::walk_back(steps, plan);
    let mut i = 0;
    while i < 64 {
        out[i] = out[i] + 48;
        i = i + 1;
    }
    rt.stdout().write_all(&out)
}
";

/// The six bytes of each step, the plan before the steps, and the plan after them.
fn drawn(random: &mut Random) -> (Vec<[u8; 6]>, Vec<u8>, Vec<u8>) {
    let n = any_size(random);
    let mut o = objective(random, n);
    o.switches = 15;
    let record = Record::of(&reduce(&o).unwrap());
    let steps = record.steps[..record.step_count as usize].to_vec();
    let answer: Vec<u8> = record.remaining().iter().map(|_| random.below(2) as u8).collect();
    let mut plan: Vec<u8> = record.states.iter().map(|&s| if s < 2 { s } else { 0 }).collect();
    for (k, &i) in record.remaining().iter().enumerate() {
        plan[i] = answer[k];
    }
    let mut grown = grow_back(&record, &answer, n).unwrap();
    grown.resize(64, 0);
    (steps, plan, grown)
}

fn call([i, d, a, b, c, choices]: &[u8; 6]) -> String {
    format!("step({i}, {d}, {a}, {b}, {c}, {choices})")
}

fn main() {
    let folder = std::env::args().nth(1).expect("walks FOLDER");
    let mut random = Random(21);
    let (mut program, mut calls, mut expected) = (String::from(SHOW), String::new(), String::new());
    let mut played = 0;
    for k in 0..CASES {
        let (steps, plan, grown) = drawn(&mut random);
        played += steps.len();
        if steps.is_empty() {
            continue; // an array of none has no type of its own
        }
        let told: Vec<String> = steps.iter().map(call).collect();
        let body = format!("let steps = [{}];\n    show(rt, &steps, {plan:?})", told.join(", "));
        writeln!(program, "fn case_{k}(rt: &HostRuntime) -> io::Result<()> {{\n    {body}\n}}")
            .unwrap();
        writeln!(calls, "    case_{k}(&rt)?;").unwrap();
        expected.extend(grown.iter().map(|&x| char::from(48 + x)));
    }
    write!(program, "fn main(rt: HostRuntime) -> io::Result<()> {{\n{calls}    Ok(())\n}}\n")
        .unwrap();
    write(format!("{folder}/src/main.rt"), program).unwrap();
    write(format!("{folder}/stdout"), &expected).unwrap();
    println!("{} walks, {played} steps", expected.len() / 64);
}
