//! The shapes of graph the generator draws from: pairs of places, each once.
use crate::random::Random;

pub type Pairs = Vec<(usize, usize)>;
pub type Shape = fn(&mut Random, usize) -> Pairs;

/// The clustered shapes stand twice: most of the block search's cases are theirs.
pub const SHAPES: [Shape; 12] = [
    sparse, tree, cycle, grid, dense, cubic, clusters, clusters, ladder, islands, islands, nothing,
];

fn nothing(_: &mut Random, _: usize) -> Pairs {
    Vec::new()
}

pub fn sparse(random: &mut Random, n: usize) -> Pairs {
    let mut pairs = Vec::new();
    if n > 1 {
        for _ in 0..random.below(2 * n + 1) {
            let (i, j) = (random.below(n), random.below(n));
            if i != j {
                pairs.push((i, j));
            }
        }
    }
    pairs
}

pub fn tree(random: &mut Random, n: usize) -> Pairs {
    (1..n).map(|i| (random.below(i), i)).collect()
}

/// A ring, now and then with chords.
pub fn cycle(random: &mut Random, n: usize) -> Pairs {
    let mut pairs: Pairs = (1..n).map(|i| (i - 1, i)).collect();
    if n > 2 {
        pairs.push((0, n - 1));
        for _ in 0..random.below(3) {
            let (i, j) = (random.below(n), random.below(n));
            if i != j {
                pairs.push((i, j));
            }
        }
    }
    pairs
}

pub fn grid(random: &mut Random, n: usize) -> Pairs {
    let width = 2 + random.below(7);
    let mut pairs = Vec::new();
    for i in 0..n {
        if i % width + 1 < width && i + 1 < n {
            pairs.push((i, i + 1));
        }
        if i + width < n {
            pairs.push((i, i + width));
        }
    }
    pairs
}

pub fn dense(random: &mut Random, n: usize) -> Pairs {
    // More than 1,024 terms cannot stand in the text form.
    let kept = if n > 40 { 40 } else { random.pick(&[40, 60, 80, 100]) };
    all_pairs(0, n).into_iter().filter(|_| random.chance(kept)).collect()
}

pub fn all_pairs(from: usize, to: usize) -> Pairs {
    (from..to).flat_map(|i| (i + 1..to).map(move |j| (i, j))).collect()
}

/// A path and a matching over shuffled places: most decisions have degree near three.
fn cubic(random: &mut Random, n: usize) -> Pairs {
    let mut order: Vec<usize> = (0..n).collect();
    random.shuffle(&mut order);
    let mut pairs: Pairs = order.windows(2).map(|w| (w[0], w[1])).collect();
    random.shuffle(&mut order);
    pairs.extend(order.chunks(2).filter(|c| c.len() == 2).map(|c| (c[0], c[1])));
    pairs
}

/// Cliques of 2 to 10 hung on one, two or three separators.
fn clusters(random: &mut Random, n: usize) -> Pairs {
    let hubs = n.min(1 + random.below(3));
    let mut pairs = all_pairs(0, hubs);
    let mut from = hubs;
    while from < n {
        let to = n.min(from + random.pick(&[2, 3, 4, 7, 8, 9, 10]));
        pairs.extend(all_pairs(from, to));
        for hub in 0..hubs {
            if random.chance(70) {
                pairs.push((hub, from + random.below(to - from)));
                pairs.push((hub, from + random.below(to - from)));
            }
        }
        from = to;
    }
    pairs
}

/// Two rails with rungs and cross-pieces: cuts appear only with one removed.
fn ladder(random: &mut Random, n: usize) -> Pairs {
    let mut pairs = Vec::new();
    for i in 0..n {
        for step in [1, 2, 3] {
            if i + step < n && (step < 3 || random.chance(60)) {
                pairs.push((i, i + step));
            }
        }
    }
    if n > 4 && random.chance(50) {
        pairs.push((0, n - 1));
        pairs.push((0, n - 2));
        pairs.push((1, n - 1));
    }
    pairs
}

/// Several graphs side by side: components that touch neither cut nor removed.
fn islands(random: &mut Random, n: usize) -> Pairs {
    let mut pairs = Vec::new();
    let mut from = 0;
    while from < n {
        let size = (2 + random.below(11)).min(n - from);
        let shape = random.pick(&[tree as Shape, cycle, dense, ladder]);
        pairs.extend(shape(random, size).into_iter().map(|(i, j)| (i + from, j + from)));
        from += size;
    }
    pairs
}
