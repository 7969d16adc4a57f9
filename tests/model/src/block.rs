//! "Small block": the search by plain reachability, the minima, the elimination.
use crate::graph::Graph;
use crate::local::{spread, Step};
use crate::wrong::{wrong, Wrong};

/// Members in growth order.
pub fn find(graph: &Graph) -> Option<Vec<usize>> {
    let active = graph.remaining();
    let mut removals: Vec<Option<usize>> = vec![None];
    removals.extend(active.iter().map(|&i| Some(i)));
    if wrong(Wrong::RemovedReversed) {
        removals[1..].reverse();
    }
    let near: Vec<Vec<usize>> = (0..graph.size()).map(|i| graph.neighbours(i)).collect();
    for removed in removals {
        let mut cuts: Vec<usize> = active.clone();
        cuts.retain(|&c| Some(c) != removed && is_cut(&near, c, removed));
        if wrong(Wrong::CutsReversed) {
            cuts.reverse();
        }
        for c in cuts {
            if let Some(members) = first_small(&near, &active, c, removed) {
                return Some(members);
            }
        }
    }
    None
}

/// "two of its neighbours, neither the removed one, have no path between them
/// that avoids c and removed". Being joined by a path is an equivalence, so all
/// neighbours are joined when all are joined to the first.
fn is_cut(near: &[Vec<usize>], c: usize, removed: Option<usize>) -> bool {
    let mut others = near[c].iter().copied().filter(|&k| Some(k) != removed);
    let Some(first) = others.next() else { return false };
    let reached = grown(near, first, &mut set_aside(near.len(), c, removed));
    others.any(|k| !reached.contains(&k))
}

fn set_aside(n: usize, c: usize, removed: Option<usize>) -> Vec<bool> {
    (0..n).map(|i| i == c || Some(i) == removed).collect()
}

/// Breadth first from a decision, neighbours ascending, never into a seen one.
fn grown(near: &[Vec<usize>], from: usize, seen: &mut [bool]) -> Vec<usize> {
    let mut members = vec![from];
    seen[from] = true;
    let mut next = 0;
    while next < members.len() {
        for &k in &near[members[next]] {
            if !seen[k] {
                seen[k] = true;
                members.push(k);
            }
        }
        next += 1;
    }
    members
}

fn grown_depth_first(near: &[Vec<usize>], from: usize, seen: &mut [bool]) -> Vec<usize> {
    seen[from] = true;
    let mut members = vec![from];
    for &k in &near[from] {
        if !seen[k] {
            members.extend(grown_depth_first(near, k, seen));
        }
    }
    members
}

fn first_small(
    near: &[Vec<usize>],
    active: &[usize],
    c: usize,
    removed: Option<usize>,
) -> Option<Vec<usize>> {
    let mut seen = set_aside(near.len(), c, removed);
    let largest =
        8 + usize::from(wrong(Wrong::BlockOfNine)) - usize::from(wrong(Wrong::BlockOfSeven));
    for &seed in active {
        if seen[seed] {
            continue;
        }
        let grow = if wrong(Wrong::DepthFirst) { grown_depth_first } else { grown };
        let members = grow(near, seed, &mut seen);
        let apart = members.iter().all(|&i| !near[i].iter().any(|&k| k == c || Some(k) == removed));
        if (2..=largest).contains(&members.len()) && !(apart && wrong(Wrong::ApartNotCounted)) {
            return Some(members);
        }
    }
    None
}

fn boundary(graph: &Graph, members: &[usize]) -> Vec<usize> {
    let mut outside: Vec<usize> = Vec::new();
    for &i in members {
        for k in graph.neighbours(i) {
            if !members.contains(&k) && !outside.contains(&k) {
                outside.push(k);
            }
        }
    }
    assert!(outside.len() <= 2);
    if !wrong(Wrong::BoundaryUnsorted) {
        outside.sort();
    }
    outside
}

/// What the chosen members cost: their weights, the edges among them, and the
/// edges to the chosen part of the boundary.
fn cost(graph: &Graph, members: &[usize], mask: usize, ends: &[usize], filling: usize) -> i64 {
    let inside: Vec<usize> =
        (0..members.len()).filter(|k| mask >> k & 1 == 1).map(|k| members[k]).collect();
    let outside: Vec<usize> =
        (0..ends.len()).filter(|k| filling >> k & 1 == 1).map(|k| ends[k]).collect();
    let mut total = 0;
    for (k, &i) in inside.iter().enumerate() {
        total += graph.linear[i];
        total += inside[..k].iter().map(|&j| graph.edges[i][j]).sum::<i64>();
        total += outside.iter().map(|&j| graph.edges[i][j]).sum::<i64>();
    }
    total
}

/// "find the cheapest interior mask (bit = place in growth order); ties keep the lowest mask"
fn cheapest(graph: &Graph, members: &[usize], ends: &[usize], filling: usize) -> (i64, usize) {
    let mut best = (cost(graph, members, 0, ends, filling), 0);
    for mask in 1..1 << members.len() {
        let cost = cost(graph, members, mask, ends, filling);
        if cost < best.0 || (cost == best.0 && wrong(Wrong::HighestMask)) {
            best = (cost, mask);
        }
    }
    best
}

/// One step per member in growth order, each with the whole boundary as neighbours.
pub fn eliminate(graph: &mut Graph, members: &[usize]) -> Vec<Step> {
    let ends = boundary(graph, members);
    let mut numbered = members.to_vec();
    if wrong(Wrong::MaskByDecision) {
        numbered.sort();
    }
    let minima: Vec<(i64, usize)> =
        (0..1 << ends.len()).map(|filling| cheapest(graph, &numbered, &ends, filling)).collect();
    spread(graph, &ends, &minima.iter().map(|m| m.0).collect::<Vec<_>>());
    let bit = |i: usize| numbered.iter().position(|&m| m == i).unwrap();
    members
        .iter()
        .map(|&i| {
            graph.drop(i);
            let choices = minima.iter().map(|m| (m.1 >> bit(i) & 1) as u8).collect();
            Step { decision: i, neighbours: ends.clone(), choices }
        })
        .collect()
}
