//! The reductions at one decision: eliminate, degree three, dominant neighbour.
use crate::graph::Graph;
use crate::wrong::{wrong, Wrong};

#[derive(Clone, Debug, PartialEq)]
pub struct Step {
    pub decision: usize,
    pub neighbours: Vec<usize>,
    /// One for each mask of the neighbours.
    pub choices: Vec<u8>,
}

/// delta for each mask: "a plus the chosen edges"; bit k of a mask is neighbour k.
fn deltas(graph: &Graph, i: usize, neighbours: &[usize]) -> Vec<i64> {
    let chosen = |mask: usize| (0..neighbours.len()).filter(move |k| mask >> k & 1 == 1);
    (0..1 << neighbours.len())
        .map(|mask| {
            graph.linear[i] + chosen(mask).map(|k| graph.edges[i][neighbours[k]]).sum::<i64>()
        })
        .collect()
}

/// "The choice is 1 only for delta below 0; exactly 0 chooses 0."
fn choice(delta: i64) -> u8 {
    u8::from(if wrong(Wrong::OneAtZero) { delta <= 0 } else { delta < 0 })
}

/// The same for a decision and for a block: t is by mask of the at most two ends.
pub fn spread(graph: &mut Graph, ends: &[usize], t: &[i64]) {
    graph.constant += t[0];
    for (k, &j) in ends.iter().enumerate() {
        graph.linear[j] += t[1 << k] - t[0];
    }
    if ends.len() == 2 {
        graph.add_edge(ends[0], ends[1], t[3] - t[1] - t[2] + t[0]);
    }
}

/// "Eliminate", for degree at most 2.
pub fn eliminate(graph: &mut Graph, i: usize) -> Step {
    let neighbours = graph.neighbours(i);
    let deltas = deltas(graph, i, &neighbours);
    let t: Vec<i64> = deltas.iter().map(|&d| d.min(0)).collect();
    spread(graph, &neighbours, &t);
    graph.drop(i);
    Step { decision: i, neighbours, choices: deltas.into_iter().map(choice).collect() }
}

/// "Degree three": None is the refusal, with the graph unchanged.
pub fn eliminate_three(graph: &mut Graph, i: usize) -> Option<Step> {
    let neighbours = graph.neighbours(i);
    let deltas = deltas(graph, i, &neighbours);
    let t: Vec<i64> = deltas.iter().map(|&d| d.min(0)).collect();
    let entry: Vec<i64> = (0..8).map(|mask| moebius(&t, mask)).collect();
    if entry[7] != 0 && !wrong(Wrong::CubicDropped) {
        return None;
    }
    graph.constant += entry[0];
    for (k, &j) in neighbours.iter().enumerate() {
        graph.linear[j] += entry[1 << k];
    }
    for (a, b, mask) in [(0, 1, 3), (0, 2, 5), (1, 2, 6)] {
        graph.add_edge(neighbours[a], neighbours[b], entry[mask]);
    }
    graph.drop(i);
    Some(Step { decision: i, neighbours, choices: deltas.into_iter().map(choice).collect() })
}

/// The sum over all parts of the mask, with a minus for each bit left out.
fn moebius(t: &[i64], mask: usize) -> i64 {
    (0..8usize)
        .filter(|part| part & mask == *part)
        .map(|part| if (mask ^ part).count_ones() % 2 == 0 { t[part] } else { -t[part] })
        .sum()
}

/// How a decision hangs on its dominant neighbour.
pub struct Dominant {
    pub neighbour: usize,
    /// x of i becomes 1 - x of j; otherwise x of j.
    pub opposite: bool,
    pub weak: bool,
}

/// "Dominant neighbour of i": neighbours ascending, the first that passes.
pub fn dominant(graph: &Graph, i: usize) -> Option<Dominant> {
    let a = graph.linear[i];
    let neighbours = graph.neighbours(i);
    let weights = || neighbours.iter().map(|&j| graph.edges[i][j]);
    let lo =
        weights().filter(|&w| w < 0).sum::<i64>() + if wrong(Wrong::LoWithoutA) { 0 } else { a };
    let hi =
        weights().filter(|&w| w > 0).sum::<i64>() + if wrong(Wrong::HiWithoutA) { 0 } else { a };
    let mut passing = neighbours.iter().filter_map(|&j| passes(graph.edges[i][j], lo, hi, j));
    if wrong(Wrong::LastDominant) {
        return passing.last();
    }
    passing.next()
}

fn passes(w: i64, lo: i64, hi: i64, neighbour: usize) -> Option<Dominant> {
    let (upper, lower) = if w > 0 { (hi - w, lo + w) } else { (hi + w, lo - w) };
    let weak = if wrong(Wrong::WeakByHiOnly) {
        upper == 0
    } else if wrong(Wrong::WeakByLoOnly) {
        lower == 0
    } else {
        upper == 0 || lower == 0
    };
    let strict = wrong(Wrong::StrictBounds) && (upper == 0 || lower == 0);
    (upper <= 0 && lower >= 0 && !strict).then_some(Dominant { neighbour, opposite: w > 0, weak })
}

/// Puts 1 - x of j, or x of j, for x of i in every term of i.
pub fn contract(graph: &mut Graph, i: usize, found: &Dominant) -> Step {
    let j = found.neighbour;
    let a = graph.linear[i];
    if found.opposite {
        // a(1 - xj), and w(1 - xj)xj is nothing.
        graph.constant += a;
        graph.linear[j] -= a;
    } else {
        graph.linear[j] += a + graph.edges[i][j];
    }
    for k in graph.neighbours(i) {
        let w = graph.edges[i][k];
        if k == j {
            continue;
        }
        if found.opposite {
            // w(1 - xj)xk
            graph.linear[k] += if wrong(Wrong::ComplementKeepsLinear) { 0 } else { w };
            graph.add_edge(j, k, -w);
        } else {
            graph.add_edge(j, k, w);
        }
    }
    graph.drop(i);
    let choices = if found.opposite { vec![1, 0] } else { vec![0, 1] };
    Step { decision: i, neighbours: vec![j], choices }
}
