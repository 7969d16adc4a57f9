//! An objective, put together piece by piece.
use crate::{calls, Counts, Record, Reduction, Refusal, BLOCK, COUNTS, EDGES, MOST_DECISIONS};

/// Which reductions a run may use.
#[derive(Clone, Copy, Debug, PartialEq, Eq)]
pub struct Switches {
    /// Eliminate decisions of degree at most 2.
    pub low_degree: bool,
    /// Try those of degree 3 (with `low_degree`).
    pub degree_three: bool,
    /// Contract dominant edges.
    pub dominant_edge: bool,
    /// Eliminate blocks of 2 to 8 behind at most two others.
    pub small_block: bool,
}

impl Switches {
    /// All four.
    pub const ALL: Switches =
        Switches { low_degree: true, degree_three: true, dominant_edge: true, small_block: true };

    /// The switch bits.
    pub fn bits(self) -> u32 {
        u32::from(self.low_degree)
            | u32::from(self.degree_three) << 1
            | u32::from(self.dominant_edge) << 2
            | u32::from(self.small_block) << 3
    }
}

/// The cost of a plan x of 0s and 1s: the sum of weight times x, and of each pair's weight times
/// both of its x. Nothing is tested here: [`reduce`](Objective::reduce) refuses what it cannot use.
#[derive(Clone, Debug, PartialEq, Eq)]
pub struct Objective {
    weights: Vec<i64>,
    firsts: Vec<u32>,
    seconds: Vec<u32>,
    term_weights: Vec<i64>,
    fixings: Vec<u8>,
    switches: u32,
    budget: u32,
}

impl Objective {
    /// One weight for each decision, at most 64. All decisions are free, all reductions are on, and
    /// the budget is ample.
    pub fn new(weights: impl Into<Vec<i64>>) -> Objective {
        let weights = weights.into();
        Objective {
            fixings: vec![2; weights.len()],
            weights,
            firsts: Vec::new(),
            seconds: Vec::new(),
            term_weights: Vec::new(),
            switches: Switches::ALL.bits(),
            budget: u32::MAX,
        }
    }

    /// Adds `weight` to the cost of having both. Repeats add up; `i` twice adds to its own weight.
    pub fn pair(mut self, i: u32, j: u32, weight: i64) -> Objective {
        self.firsts.push(i);
        self.seconds.push(j);
        self.term_weights.push(weight);
        self
    }

    /// Fixes a decision. One that is not there makes the fixing list too long, which is refused
    /// with [`Refusal::Lengths`].
    pub fn fix(mut self, decision: u32, value: bool) -> Objective {
        match self.fixings.get_mut(decision as usize) {
            Some(byte) => *byte = u8::from(value),
            None => self.fixings.push(u8::from(value)),
        }
        self
    }

    /// The whole fixing list at once: 0, 1, or 2 for free.
    pub fn fixings(mut self, fixings: impl Into<Vec<u8>>) -> Objective {
        self.fixings = fixings.into();
        self
    }

    /// Which reductions to use.
    pub fn switches(self, switches: Switches) -> Objective {
        self.switch_bits(switches.bits())
    }

    /// The same as bits, any of them.
    pub fn switch_bits(mut self, bits: u32) -> Objective {
        self.switches = bits;
        self
    }

    /// How many units the run may use: one for each decision it takes from its queue and one for
    /// each block. A run that would need more is cut short, and what it gives is still exact.
    pub fn budget(mut self, units: u32) -> Objective {
        self.budget = units;
        self
    }

    /// Reduces it.
    pub fn reduce(&self) -> Result<Reduction, Refusal> {
        let mut linear = [0; MOST_DECISIONS];
        let mut edges = vec![0; EDGES];
        let mut block = [0; BLOCK];
        let mut counts = [0; COUNTS];
        calls::reduce(
            u32::try_from(self.weights.len()).unwrap_or(u32::MAX),
            &self.weights,
            &self.firsts,
            &self.seconds,
            &self.term_weights,
            &self.fixings,
            self.switches,
            self.budget,
            &mut linear,
            &mut edges,
            &mut block,
            &mut counts,
        )?;
        Ok(Reduction::new(Record::written(block), linear, edges, Counts::listed(counts)))
    }
}
