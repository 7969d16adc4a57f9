//! The model's answer in the oracle's form, so that the two can be held together.
use crate::back::grow_back;
use crate::record::Record;
use crate::run::{Counts, Reduction};
use crate::text::{graph_and_steps, list, with_semicolons};

/// The counts the Rust has, in the order of `RootReductionStatistics`.
pub fn counts(c: &Counts) -> [u32; 10] {
    [
        c.eliminated,
        c.degree_three_eliminated,
        c.degree_three_skipped,
        c.contracted,
        c.weak_contractions,
        c.additional_fixed,
        c.remaining,
        c.passes,
        c.blocks_eliminated,
        c.block_variables,
    ]
}

/// As the oracle tells it; "none" where no step was taken.
pub fn told(reduction: &Reduction) -> String {
    if reduction.steps.is_empty() {
        return "none".into();
    }
    let mut text = with_semicolons(&graph_and_steps(reduction));
    text += &list("counts", counts(&reduction.counts));
    let record = Record::of(reduction);
    for pattern in [0b00u8, 0b11, 0b10] {
        let answer: Vec<u8> =
            (0..reduction.remaining.len()).map(|k| pattern >> (k % 2) & 1).collect();
        match grow_back(&record, &answer, reduction.n as usize) {
            Ok(plan) => text += &list(";grown", plan),
            Err(number) => text += &format!(";grown refused {number}"),
        }
    }
    text
}
