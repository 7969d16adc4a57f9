//! Draws objectives: a shape, weights of some style, then terms split, doubled,
//! cancelled and turned round, fixings, switches. All from the seed.
use crate::objective::{Objective, LARGEST};
use crate::random::Random;
use crate::shapes::{all_pairs, Pairs, SHAPES};

/// Any size from 0 to 64, most of them small.
pub fn any_size(random: &mut Random) -> usize {
    match random.below(100) {
        0..=1 => 64,
        2..=9 => random.below(65),
        10..=39 => random.below(25),
        _ => 1 + random.below(13),
    }
}

pub fn objective(random: &mut Random, n: usize) -> Objective {
    let shape = random.pick(&SHAPES);
    let mut pairs = shape(random, n);
    if random.chance(50) {
        relabel(random, n, &mut pairs);
    }
    let mut o = weighted(random, n, &pairs);
    disturb(random, &mut o);
    o.fixings = fixings(random, n);
    o.switches = switches(random);
    o.budget = u32::MAX;
    fill_up(random, &mut o);
    assert!(o.total() <= LARGEST as i128 && o.firsts.len() <= 1024);
    o
}

/// Every pair of 46 to 64 decisions, many of them twice: more terms than the text
/// form holds. Most decisions are fixed, so that the rest still reduces.
pub fn crowded(random: &mut Random) -> Objective {
    let n = 46 + random.below(19);
    let mut o = weighted(random, n, &all_pairs(0, n));
    let most = random.pick(&[o.firsts.len(), 3000, 4096]);
    while o.firsts.len() < most {
        split(random, &mut o);
    }
    shuffle_terms(random, &mut o);
    let free = random.pick(&[3, 6, 10, 20]);
    o.fixings =
        (0..n).map(|_| if random.below(n) < free { 2 } else { random.below(2) as u8 }).collect();
    o.switches = switches(random);
    o.budget = u32::MAX;
    assert!(o.total() <= LARGEST as i128 && o.firsts.len() <= 4096);
    o
}

fn relabel(random: &mut Random, n: usize, pairs: &mut Pairs) {
    let mut names: Vec<usize> = (0..n).collect();
    random.shuffle(&mut names);
    for (i, j) in pairs {
        (*i, *j) = (names[*i], names[*j]);
    }
}

/// All 16 sets. Those that let blocks meet large graphs are drawn more often,
/// the two that can take no step (0 and 2) less often.
fn switches(random: &mut Random) -> u32 {
    match random.below(100) {
        0..=24 => random.pick(&[8, 10, 12, 15]),
        25..=26 => random.pick(&[0, 2]),
        _ => random.pick(&[1, 3, 4, 5, 6, 7, 8, 9, 10, 11, 12, 13, 14, 15]),
    }
}

fn weighted(random: &mut Random, n: usize, pairs: &Pairs) -> Objective {
    let mut o = Objective { n: n as u32, weights: vec![0; n], ..Objective::default() };
    let style = random.below(6);
    for &(i, j) in pairs {
        let w = edge_weight(random, style);
        o.push_term(i, j, w);
    }
    for i in 0..n {
        o.weights[i] = linear_weight(random, style, &o, i);
    }
    o
}

fn edge_weight(random: &mut Random, style: usize) -> i64 {
    match style {
        0 => random.pick(&[-1, 1]),
        1 => random.pick(&[-2, 2]),
        2 => random.between(-3, 3),
        3 => random.between(-1000, 1000),
        4 => random.between(-100_000_000, 100_000_000),
        _ => random.pick(&[1, 2, 4, -1, -8]),
    }
}

/// Ties come from weights that take back some of the decision's own edges;
/// dominance from weights that take back about half of them.
fn linear_weight(random: &mut Random, style: usize, o: &Objective, i: usize) -> i64 {
    let own: Vec<i64> = o.terms().filter(|t| t.0 == i || t.1 == i).map(|t| t.2).collect();
    match random.below(5) {
        0 => 0,
        1 => -own.iter().filter(|_| random.chance(50)).sum::<i64>(),
        2 => -own.iter().sum::<i64>() / 2,
        3 => -own.iter().sum::<i64>() / 2 + random.between(-1, 1),
        _ => edge_weight(random, style),
    }
}

fn disturb(random: &mut Random, o: &mut Objective) {
    let n = o.n as usize;
    if n == 0 || random.chance(40) {
        return;
    }
    for _ in 0..random.below(1 + n / 2) {
        let (i, j, w) = (random.below(n), random.below(n), random.between(-4, 4));
        match random.below(4) {
            // Added and taken back: no edge is left of it.
            0 => {
                o.push_term(i, j, w);
                o.push_term(j, i, -w);
            }
            1 => o.push_term(i, i, w),
            2 => o.push_term(i, j, 0),
            _ => split(random, o),
        }
    }
    for k in 0..o.firsts.len() {
        if random.chance(30) {
            (o.firsts[k], o.seconds[k]) = (o.seconds[k], o.firsts[k]);
        }
    }
    if random.chance(50) {
        shuffle_terms(random, o);
    }
}

/// One term becomes two that add up to it.
fn split(random: &mut Random, o: &mut Objective) {
    if o.firsts.is_empty() {
        return;
    }
    let k = random.below(o.firsts.len());
    let part = random.between(-3, 3);
    o.term_weights[k] -= part;
    o.push_term(o.firsts[k] as usize, o.seconds[k] as usize, part);
}

fn shuffle_terms(random: &mut Random, o: &mut Objective) {
    let mut terms: Vec<_> = o.terms().collect();
    random.shuffle(&mut terms);
    o.firsts.clear();
    o.seconds.clear();
    o.term_weights.clear();
    for (i, j, w) in terms {
        o.push_term(i, j, w);
    }
}

fn fixings(random: &mut Random, n: usize) -> Vec<u8> {
    let fixed = random.pick(&[0, 0, 0, 0, 0, 10, 10, 10, 40, 100]);
    (0..n).map(|_| if random.chance(fixed) { random.below(2) as u8 } else { 2 }).collect()
}

/// One objective in eight is brought to a total of exactly 2^40, by one weight or
/// by all of them.
fn fill_up(random: &mut Random, o: &mut Objective) {
    if o.n == 0 || !random.chance(12) {
        return;
    }
    if random.chance(50) && o.total() > 0 {
        let factor = (LARGEST as i128 / o.total()) as i64;
        o.weights.iter_mut().chain(&mut o.term_weights).for_each(|w| *w *= factor);
    }
    raise_total(random, o, LARGEST);
}

/// Makes one weight larger so that the total is exactly `total`.
pub fn raise_total(random: &mut Random, o: &mut Objective, total: i64) {
    let missing = (total as i128 - o.total()) as i64;
    let all = o.weights.len() + o.term_weights.len();
    let k = random.below(all);
    let w = o.weights.iter_mut().chain(&mut o.term_weights).nth(k).unwrap();
    *w += if *w < 0 || (*w == 0 && missing % 2 == 0) { -missing } else { missing };
}
