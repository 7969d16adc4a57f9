//! What a run gives.
use crate::{Record, COUNTS, MOST_DECISIONS};

/// What a run did.
#[derive(Clone, Copy, Debug, Default, PartialEq, Eq)]
pub struct Counts {
    /// Decisions eliminated by low degree, degree three included.
    pub eliminated: u32,
    /// Those of degree three.
    pub degree_three_eliminated: u32,
    /// Tries at degree three that met a cubic term.
    pub degree_three_skipped: u32,
    /// Decisions contracted into a dominant neighbour.
    pub contracted: u32,
    /// Those where a bound was 0.
    pub weak_contractions: u32,
    /// Always 0.
    pub additional_fixed: u32,
    /// Decisions that are left.
    pub remaining: u32,
    /// 1 and the blocks.
    pub passes: u32,
    /// Blocks eliminated.
    pub blocks_eliminated: u32,
    /// Decisions in them.
    pub block_variables: u32,
    /// Decisions taken from the queue.
    pub takes: u32,
    /// Blocks eliminated: a unit each.
    pub blocks: u32,
    /// Takes and blocks: the budget that was used.
    pub units: u32,
    /// Whether the run came to its end within the budget.
    pub complete: bool,
}

impl Counts {
    pub(crate) fn listed(list: [u32; COUNTS]) -> Counts {
        let [eliminated, degree_three_eliminated, degree_three_skipped, contracted, weak_contractions, additional_fixed, remaining, passes, blocks_eliminated, block_variables, takes, blocks, units, complete] =
            list;
        Counts {
            eliminated,
            degree_three_eliminated,
            degree_three_skipped,
            contracted,
            weak_contractions,
            additional_fixed,
            remaining,
            passes,
            blocks_eliminated,
            block_variables,
            takes,
            blocks,
            units,
            complete: complete != 0,
        }
    }
}

/// The objective that is left, over the remaining decisions by their places, ascending, with the
/// record that grows its answers back and the counts.
#[derive(Clone, Debug, PartialEq, Eq)]
pub struct Reduction {
    record: Record,
    linear: [i64; MOST_DECISIONS],
    edges: Vec<i64>,
    counts: Counts,
}

impl Reduction {
    pub(crate) fn new(
        record: Record,
        linear: [i64; MOST_DECISIONS],
        edges: Vec<i64>,
        counts: Counts,
    ) -> Reduction {
        Reduction { record, linear, edges, counts }
    }

    /// The record: keep it with the answer.
    pub fn record(&self) -> &Record {
        &self.record
    }

    /// What every plan costs besides.
    pub fn constant(&self) -> i64 {
        self.record.constant()
    }

    /// The weight of each remaining decision.
    pub fn linear(&self) -> &[i64] {
        let r = (self.counts.remaining as usize).min(MOST_DECISIONS);
        &self.linear[..r]
    }

    /// The weight of a pair of places; 0 where there is no edge or no such place.
    pub fn edge(&self, i: usize, j: usize) -> i64 {
        if i < MOST_DECISIONS && j < MOST_DECISIONS {
            self.edges.get(MOST_DECISIONS * i + j).copied().unwrap_or(0)
        } else {
            0
        }
    }

    /// Every edge once, as places i below j and a weight.
    pub fn edges(&self) -> impl Iterator<Item = (usize, usize, i64)> + '_ {
        let r = self.linear().len();
        (0..r)
            .flat_map(move |i| (i + 1..r).map(move |j| (i, j, self.edge(i, j))))
            .filter(|&(_, _, weight)| weight != 0)
    }

    /// What the run did.
    pub fn counts(&self) -> &Counts {
        &self.counts
    }

    /// What an answer costs: the same as the plan grown back from it does in the objective as it
    /// was given. Bytes past the remaining decisions are not looked at; none counts as 0.
    pub fn cost(&self, answer: &[u8]) -> i64 {
        let on = |i: usize| answer.get(i).is_some_and(|&x| x != 0);
        let own: i64 =
            self.linear().iter().enumerate().filter(|(i, _)| on(*i)).map(|(_, w)| w).sum();
        let pairs: i64 = self.edges().filter(|&(i, j, _)| on(i) && on(j)).map(|(_, _, w)| w).sum();
        self.constant() + own + pairs
    }
}
