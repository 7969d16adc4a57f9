//! Reads an objective, puts it to the given Rust, and writes what it says.
use crate::preprocess::low_degree::{only_reduce, open_reduce, Opened};
use crate::qubo::Qubo;
use crate::solver_options::SolverOptions;
use crate::FixedVarMap;
use ndarray::Array1;
use sprs::TriMat;
use std::fmt::Write;

pub struct Asked {
    qubo: Qubo,
    fixed: FixedVarMap,
    options: SolverOptions,
}

/// The program's text form with a semicolon for each newline. Only objectives
/// that are not refused are put to the oracle, so a bad line may panic.
pub fn read(line: &str) -> Asked {
    let mut parts = line.split(';');
    let first = numbers(parts.next().unwrap());
    let (n, switches, terms) = (first[0] as usize, first[1], first[3] as usize);
    let weights = numbers(parts.next().unwrap());
    let fixings = numbers(parts.next().unwrap());
    assert_eq!((weights.len(), fixings.len()), (n, n));
    let mut q = TriMat::new((n, n));
    for _ in 0..terms {
        let term = numbers(parts.next().unwrap());
        // The Rust stores twice the weight of a pair and of the diagonal.
        q.add_triplet(term[0] as usize, term[1] as usize, 2.0 * term[2] as f64);
    }
    let c = Array1::from_iter(weights.iter().map(|&w| w as f64));
    let fixed = (0..n).filter(|&i| fixings[i] < 2).map(|i| (i, fixings[i] as usize)).collect();
    Asked { qubo: Qubo::new_with_c(q.to_csr(), c), fixed, options: options(switches) }
}

fn numbers(text: &str) -> Vec<i64> {
    text.split_whitespace().map(|w| w.parse().unwrap()).collect()
}

fn options(switches: i64) -> SolverOptions {
    let mut options = SolverOptions::new();
    options.root_low_degree_elimination = switches & 1 != 0;
    options.root_degree_three_elimination = switches & 2 != 0;
    options.root_dominant_edge_contraction = switches & 4 != 0;
    options.small_block_elimination = switches & 8 != 0;
    options.root_cut_dominance = false;
    options
}

pub fn answer(asked: &Asked) -> String {
    match open_reduce(&asked.qubo, &asked.fixed, &asked.options) {
        Some(opened) => told(&opened),
        None => "none".into(),
    }
}

/// For timing: whether `reduce` took a step.
pub fn takes_steps(asked: &Asked) -> bool {
    only_reduce(&asked.qubo, &asked.fixed, &asked.options)
}

/// 01's output text without the units line, then the counts, then the plans
/// grown back from a reduced answer of zeros, of ones, and of 0 and 1 in turn.
fn told(opened: &Opened) -> String {
    let reduction = &opened.reduction;
    let mut text = format!("constant {}", whole(reduction.constant));
    text += &list(";remaining", reduction.remaining.iter());
    text += &list(";linear", reduction.qubo.c.iter().map(|&w| whole(w)));
    for (&weight, (i, j)) in &reduction.qubo.q {
        if i < j {
            write!(text, ";edge {i} {j} {}", whole(weight)).unwrap();
        }
    }
    for (decision, neighbours, choices) in &opened.steps {
        write!(text, ";step {decision} :").unwrap();
        text += &list("", neighbours.iter());
        text += &list(" :", choices[..1 << neighbours.len()].iter());
    }
    let s = &reduction.statistics;
    let cut = &s.cut_dominance;
    assert!(cut.flow_trials + cut.contracted + cut.fixed == 0 && !cut.budget_exhausted);
    let counts = [
        s.eliminated,
        s.degree_three_eliminated,
        s.degree_three_skipped,
        s.contracted,
        s.weak_contractions,
        s.additional_fixed,
        s.remaining,
        s.passes,
        s.blocks_eliminated,
        s.block_variables,
    ];
    text += &list(";counts", counts.iter());
    for pattern in [0b00, 0b11, 0b10] {
        let reduced = (0..reduction.remaining.len()).map(|k| pattern >> (k % 2) & 1).collect();
        let full = reduction.reconstruct(&reduced);
        assert_eq!(reduction.project(&full).to_vec(), reduced.to_vec());
        text += &list(";grown", full.iter());
    }
    text
}

fn list<T: ToString>(head: &str, items: impl Iterator<Item = T>) -> String {
    items.fold(head.to_string(), |text, item| text + " " + &item.to_string())
}

/// Every sum the Rust makes is whole at the size rule; -0.0 reads as 0.
fn whole(weight: f64) -> i64 {
    let value = weight as i64;
    assert_eq!(value as f64, weight);
    value
}
