//! The call on lent lists, for an objective of the model's; the bench has this file too.
use balecreak::{calls, Refusal};
use model::objective::Objective;

/// What is lent to a reduce.
#[derive(Clone, Debug, PartialEq)]
pub struct Lent {
    pub linear: Vec<i64>,
    pub edges: Vec<i64>,
    pub block: Vec<u8>,
    pub counts: Vec<u32>,
}

impl Lent {
    /// Of the right lengths, and full of numbers that no answer has everywhere.
    pub fn fresh() -> Lent {
        Lent::sized(64, 4096, 512, 14)
    }

    pub fn sized(linear: usize, edges: usize, block: usize, counts: usize) -> Lent {
        Lent {
            linear: vec![77; linear],
            edges: vec![-77; edges],
            block: vec![7; block],
            counts: vec![777; counts],
        }
    }

    pub fn reduce(&mut self, o: &Objective) -> Result<(), Refusal> {
        calls::reduce(
            o.n,
            &o.weights,
            &o.firsts,
            &o.seconds,
            &o.term_weights,
            &o.fixings,
            o.switches,
            o.budget,
            &mut self.linear,
            &mut self.edges,
            &mut self.block,
            &mut self.counts,
        )
    }
}
