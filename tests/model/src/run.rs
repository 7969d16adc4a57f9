//! "The run" and "Budget", and what the public call hands back.
use crate::block;
use crate::graph::Graph;
use crate::local::{contract, dominant, eliminate, eliminate_three, Step};
use crate::objective::{refusal, Objective};
use crate::wrong::{wrong, Wrong};
use std::collections::VecDeque;

#[derive(Clone, Copy, Debug, Default, PartialEq)]
pub struct Counts {
    pub eliminated: u32,
    pub degree_three_eliminated: u32,
    pub degree_three_skipped: u32,
    pub contracted: u32,
    pub weak_contractions: u32,
    pub additional_fixed: u32,
    pub remaining: u32,
    pub passes: u32,
    pub blocks_eliminated: u32,
    pub block_variables: u32,
    pub takes: u32,
}

#[derive(Clone, Debug)]
pub struct Reduction {
    pub n: u32,
    pub constant: i64,
    pub states: Vec<u8>,
    pub steps: Vec<Step>,
    pub remaining: Vec<usize>,
    /// 64 long.
    pub linear: Vec<i64>,
    /// 4,096 long.
    pub edges: Vec<i64>,
    pub counts: Counts,
    pub units: u32,
    pub complete: bool,
}

/// The public call: a refusal's number, or the reduction.
pub fn reduce(o: &Objective) -> Result<Reduction, u32> {
    match refusal(o, 64, 4096) {
        0 => Ok(run(o)),
        number => Err(number),
    }
}

struct Run<'a> {
    objective: &'a Objective,
    graph: Graph,
    steps: Vec<Step>,
    counts: Counts,
}

fn run(o: &Objective) -> Reduction {
    let mut graph = Graph::built(o);
    graph.fix_all(&o.fixings);
    let mut run = Run { objective: o, graph, steps: Vec::new(), counts: Counts::default() };
    let mut complete = run.passes();
    complete &= run.unit_left() || o.budget == 0 || !wrong(Wrong::ShortAtLast);
    let later =
        if complete || !wrong(Wrong::ShortKeepsPass) { run.counts.blocks_eliminated } else { 0 };
    run.counts.passes = 1 + later;
    run.counts.remaining = run.graph.remaining().len() as u32;
    run.handed_back(complete)
}

impl Run<'_> {
    /// "One unit per take and one per block eliminated."
    fn units(&self) -> u32 {
        let blocks = if wrong(Wrong::BlockFree) { 0 } else { self.counts.blocks_eliminated };
        self.counts.takes + blocks
    }

    fn unit_left(&self) -> bool {
        self.units() < self.objective.budget
    }

    /// Whether the run came to its end: it is cut short exactly when a take or a
    /// found block is due and no unit is left.
    fn passes(&mut self) -> bool {
        loop {
            if !self.one_pass() {
                return false;
            }
            if !self.objective.small_block() {
                return true;
            }
            let Some(members) = block::find(&self.graph) else {
                self.counts.takes += u32::from(wrong(Wrong::SearchCosts) && self.unit_left());
                return true;
            };
            if !self.unit_left() && !wrong(Wrong::BlockUnasked) {
                return false;
            }
            self.counts.blocks_eliminated += 1;
            self.counts.block_variables += members.len() as u32;
            self.steps.extend(block::eliminate(&mut self.graph, &members));
            if wrong(Wrong::OnePassOnly) {
                return true;
            }
        }
    }

    /// "dominant edge is on, or low degree is on and its degree is at most 3
    /// (degree three on) or 2 (off)"
    fn eligible(&self, i: usize) -> bool {
        let o = self.objective;
        let most = if o.degree_three() { 3 } else { 2 };
        o.dominant_edge() || (o.low_degree() && self.graph.degree(i) <= most)
    }

    fn one_pass(&mut self) -> bool {
        let mut queue: VecDeque<usize> = self.graph.remaining().into();
        queue.retain(|&i| self.eligible(i));
        let began = self.graph.clone();
        while !queue.is_empty() {
            if !self.unit_left() {
                return false;
            }
            self.counts.takes += 1;
            let back = wrong(Wrong::TakesFromBack);
            let taken = if back { queue.pop_back() } else { queue.pop_front() };
            for j in self.take(taken.unwrap(), &began) {
                self.join(&mut queue, j);
            }
        }
        true
    }

    /// "join the back if active, not waiting and now eligible"
    fn join(&self, queue: &mut VecDeque<usize>, j: usize) {
        let waiting = queue.contains(&j) && !wrong(Wrong::RejoinsWaiting);
        let eligible = self.eligible(j) || wrong(Wrong::RejoinsUnasked);
        if self.graph.active[j] && !waiting && eligible && !wrong(Wrong::NeverRejoins) {
            queue.push_back(j);
        }
    }

    /// One take. Hands back the neighbours as they were if there was a reduction.
    fn take(&mut self, i: usize, began: &Graph) -> Vec<usize> {
        // "Inactive: skip, still one take." It never comes to this: a decision waits
        // at most once, and goes only by its own take or when no one waits.
        if !self.graph.active[i] {
            return Vec::new();
        }
        let neighbours = self.graph.neighbours(i);
        match self.reduction_at(i, began) {
            Some(step) => {
                self.steps.push(step);
                neighbours
            }
            None => {
                self.counts.takes -= u32::from(wrong(Wrong::EmptyTakeFree));
                Vec::new()
            }
        }
    }

    fn reduction_at(&mut self, i: usize, began: &Graph) -> Option<Step> {
        let o = self.objective;
        if o.low_degree() && self.graph.degree(i) <= 2 {
            self.counts.eliminated += 1;
            return Some(eliminate(&mut self.graph, i));
        }
        let three = o.low_degree() && o.degree_three() && self.graph.degree(i) == 3;
        if three && wrong(Wrong::ThreeBeforeDominant) {
            return self.try_three(i);
        }
        let tested = if wrong(Wrong::SeveralDominant) { began } else { &self.graph };
        let found = if o.dominant_edge() { dominant(tested, i) } else { None };
        // Only on an older graph can the neighbour have gone.
        if let Some(found) = found.filter(|found| self.graph.active[found.neighbour]) {
            self.counts.contracted += 1;
            self.counts.weak_contractions += u32::from(found.weak);
            return Some(contract(&mut self.graph, i, &found));
        }
        if three {
            return self.try_three(i);
        }
        None
    }

    fn try_three(&mut self, i: usize) -> Option<Step> {
        let step = eliminate_three(&mut self.graph, i);
        match step {
            Some(_) => {
                self.counts.eliminated += 1;
                self.counts.degree_three_eliminated += 1;
            }
            None => self.counts.degree_three_skipped += 1,
        }
        step
    }

    /// "Outputs", and the state of each decision as the record keeps it.
    fn handed_back(self, complete: bool) -> Reduction {
        let remaining = self.graph.remaining();
        let mut linear = vec![0; 64];
        let mut edges = vec![0; 4096];
        for (i, &p) in remaining.iter().enumerate() {
            linear[i] = self.graph.linear[p];
            for (j, &q) in remaining.iter().enumerate() {
                edges[64 * i + j] = self.graph.edges[p][q];
            }
        }
        let state = |i: usize| match self.objective.fixings[i] {
            2 if self.graph.active[i] => 2,
            2 => 3,
            fixed => fixed,
        };
        Reduction {
            n: self.objective.n,
            constant: self.graph.constant,
            states: (0..self.graph.size()).map(state).collect(),
            remaining,
            linear,
            edges,
            units: self.units(),
            steps: self.steps,
            counts: self.counts,
            complete,
        }
    }
}
