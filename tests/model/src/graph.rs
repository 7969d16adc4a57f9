//! The objective as a graph: building and fixing.
use crate::objective::Objective;
use crate::wrong::{wrong, Wrong};

#[derive(Clone, Debug, PartialEq)]
pub struct Graph {
    pub constant: i64,
    pub linear: Vec<i64>,
    /// Both ways round; 0 is no edge.
    pub edges: Vec<Vec<i64>>,
    pub active: Vec<bool>,
}

impl Graph {
    /// "repeats added up. A term with i = j adds to a of i."
    pub fn built(o: &Objective) -> Graph {
        let n = o.n as usize;
        let mut graph = Graph {
            constant: 0,
            linear: o.weights.clone(),
            edges: vec![vec![0; n]; n],
            active: vec![true; n],
        };
        for (i, j, w) in o.terms() {
            if i != j {
                graph.add_edge(i, j, w);
            } else if !wrong(Wrong::DiagonalLost) {
                graph.linear[i] += w;
            }
        }
        graph
    }

    pub fn add_edge(&mut self, i: usize, j: usize, w: i64) {
        assert_ne!(i, j);
        self.edges[i][j] += w;
        self.edges[j][i] += w;
    }

    pub fn size(&self) -> usize {
        self.active.len()
    }

    /// Ascending.
    pub fn neighbours(&self, i: usize) -> Vec<usize> {
        (0..self.size()).filter(|&j| self.edges[i][j] != 0).collect()
    }

    pub fn degree(&self, i: usize) -> usize {
        self.edges[i].iter().filter(|&&w| w != 0).count()
    }

    /// Ascending.
    pub fn remaining(&self) -> Vec<usize> {
        (0..self.size()).filter(|&i| self.active[i]).collect()
    }

    /// A decision that has gone keeps no weight and no edge.
    pub fn drop(&mut self, i: usize) {
        for j in 0..self.size() {
            self.edges[i][j] = 0;
            self.edges[j][i] = 0;
        }
        self.linear[i] = 0;
        self.active[i] = false;
    }

    /// "Fix first, ascending: value 1 adds a to the constant and each edge to the
    /// neighbour's a; either value drops the decision and its edges."
    pub fn fix_all(&mut self, fixings: &[u8]) {
        for (i, &value) in fixings.iter().enumerate() {
            if value == 2 {
                continue;
            }
            if value == 1 {
                self.constant += self.linear[i];
                for j in self.neighbours(i) {
                    self.linear[j] +=
                        if wrong(Wrong::FixedEdgesLost) { 0 } else { self.edges[i][j] };
                }
            }
            self.drop(i);
        }
    }

    /// Constant plus the sum of a·x and w·x·x over the active decisions.
    pub fn cost(&self, x: &[u8]) -> i64 {
        let mut total = self.constant;
        for i in 0..self.size() {
            if x[i] == 1 {
                total += self.linear[i];
                total += (0..i).filter(|&j| x[j] == 1).map(|j| self.edges[i][j]).sum::<i64>();
            }
        }
        total
    }
}
