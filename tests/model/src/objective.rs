//! "The objective we accept" and refusals 1 to 6.

pub const LARGEST: i64 = 1 << 40;

#[derive(Clone, Debug, Default, PartialEq)]
pub struct Objective {
    pub n: u32,
    pub switches: u32,
    pub budget: u32,
    pub weights: Vec<i64>,
    pub fixings: Vec<u8>,
    pub firsts: Vec<u32>,
    pub seconds: Vec<u32>,
    pub term_weights: Vec<i64>,
}

impl Objective {
    pub fn low_degree(&self) -> bool {
        self.switches & 1 != 0
    }

    pub fn degree_three(&self) -> bool {
        self.switches & 2 != 0
    }

    pub fn dominant_edge(&self) -> bool {
        self.switches & 4 != 0
    }

    pub fn small_block(&self) -> bool {
        self.switches & 8 != 0
    }

    pub fn terms(&self) -> impl Iterator<Item = (usize, usize, i64)> + '_ {
        (0..self.firsts.len())
            .map(|k| (self.firsts[k] as usize, self.seconds[k] as usize, self.term_weights[k]))
    }

    pub fn push_term(&mut self, i: usize, j: usize, w: i64) {
        self.firsts.push(i as u32);
        self.seconds.push(j as u32);
        self.term_weights.push(w);
    }

    /// "the absolute values of all weights given, linear and pair, before any adding up"
    pub fn total(&self) -> i128 {
        self.weights.iter().chain(&self.term_weights).map(|&w| (w as i128).abs()).sum()
    }
}

/// The number of the first row of the table that holds, or 0.
pub fn refusal(o: &Objective, linear_out: usize, edges_out: usize) -> u32 {
    let n = o.n as usize;
    let terms = o.firsts.len();
    let lists_wrong = o.weights.len() != n
        || o.fixings.len() != n
        || o.seconds.len() != terms
        || o.term_weights.len() != terms
        || terms > 4096
        || linear_out != 64
        || edges_out != 4096;
    let rows = [
        (1, n > 64),
        (2, lists_wrong),
        (3, o.firsts.iter().chain(&o.seconds).any(|&i| i >= o.n)),
        (4, o.fixings.iter().any(|&f| f > 2)),
        (5, o.switches > 15),
        (6, o.total() > LARGEST as i128),
    ];
    rows.iter().find(|(_, held)| *held).map_or(0, |&(number, _)| number)
}
