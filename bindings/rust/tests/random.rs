//! Random objectives, damaged blocks and wrong lengths against the model, and demand 3 by trying
//! every plan. BALECREAK_TRIES makes the runs longer or shorter (2,000 without it).
mod common;
use balecreak::{calls, Objective as Built, Record};
use common::{copies, every_plan, number, same, Lent};
use model::back::{grow_back_block, project_block};
use model::generator::{any_size, crowded, objective};
use model::objective::{refusal, Objective};
use model::random::Random;
use model::record::{read, seal, write};
use model::run::reduce;

fn tries() -> usize {
    std::env::var("BALECREAK_TRIES").ok().and_then(|t| t.parse().ok()).unwrap_or(2_000)
}

/// Half of them with a budget that may cut them short.
fn drawn(random: &mut Random, n: usize) -> Objective {
    let mut o = objective(random, n);
    if random.chance(50) {
        o.budget = random.below(2 * n + 3) as u32;
    }
    o
}

#[test]
fn runs_against_the_model() {
    let mut random = Random(1);
    for k in 0..tries() {
        let n = any_size(&mut random);
        let o = if k % 100 == 99 { crowded(&mut random) } else { drawn(&mut random, n) };
        let mut lent = Lent::fresh();
        assert_eq!(number(lent.reduce(&o)), 0);
        let theirs = reduce(&o).unwrap();
        same(&lent.as_model(), &theirs);
        let block = write(&model::record::Record::of(&theirs), 512).unwrap();
        assert_eq!(lent.block, block);
    }
}

#[test]
fn built_piece_by_piece() {
    let mut random = Random(2);
    for _ in 0..tries() / 4 {
        let n = any_size(&mut random);
        let o = drawn(&mut random, n);
        let mut built = Built::new(o.weights.clone()).switch_bits(o.switches).budget(o.budget);
        for (i, j, w) in o.terms() {
            built = built.pair(i as u32, j as u32, w);
        }
        for (i, &byte) in o.fixings.iter().enumerate().filter(|f| *f.1 < 2) {
            built = built.fix(i as u32, byte == 1);
        }
        let (reduction, theirs) = (built.reduce().unwrap(), reduce(&o).unwrap());
        let r = theirs.remaining.len();
        assert_eq!(reduction.linear(), &theirs.linear[..r]);
        assert_eq!(reduction.constant(), theirs.constant);
        assert_eq!(reduction.counts().units, theirs.units);
        assert_eq!(reduction.counts().complete, theirs.complete);
        for (i, j) in (0..66).flat_map(|i| (0..66).map(move |j| (i, j))) {
            let there = i < 64 && j < 64;
            assert_eq!(reduction.edge(i, j), if there { theirs.edges[64 * i + j] } else { 0 });
        }
        assert!(reduction.edges().all(|(i, j, w)| i < j && j < r && w == reduction.edge(i, j)));
    }
}

#[test]
fn wrong_lengths_and_values() {
    let mut random = Random(3);
    let mut met = [0; 10];
    for _ in 0..tries() {
        let n = random.below(8);
        let mut o = drawn(&mut random, n);
        let mut sizes = [64, 4096, 512, 14];
        for _ in 0..random.below(3) {
            spoil(&mut random, &mut o, &mut sizes);
        }
        let before = Lent::sized(sizes[0], sizes[1], sizes[2], sizes[3]);
        let mut lent = before.clone();
        let answer = number(lent.reduce(&o));
        let linear = if sizes[3] == 14 { sizes[0] } else { 0 };
        let expected = match refusal(&o, linear, sizes[1]) {
            0 if sizes[2] != 512 => 9,
            number => number,
        };
        assert_eq!(answer, expected);
        assert!(answer == 0 || lent == before);
        met[answer as usize] += 1;
    }
    // The draws are always the same: 60 of them, for a run under valgrind, do not meet 6 yet.
    let all = [0, 1, 2, 3, 4, 5, 6, 9].iter().all(|&answer: &usize| met[answer] > 0);
    assert!(all || tries() < 1_000, "{met:?}");
}

fn spoil(random: &mut Random, o: &mut Objective, sizes: &mut [usize; 4]) {
    match random.below(12) {
        0 => o.n = random.pick(&[65, 66, u32::MAX, o.n + 1]),
        1 => o.weights.push(0),
        2 => o.fixings.push(2),
        3 => o.firsts.push(0),
        4 => o.term_weights.push(i64::MIN),
        5 => o.push_term(o.n as usize, 0, 0),
        6 => o.fixings.iter_mut().for_each(|f| *f = f.wrapping_add(2)),
        7 => o.switches = random.pick(&[16, 31, u32::MAX]),
        8 => o.weights.iter_mut().for_each(|w| *w = i64::MIN),
        _ => {
            let k = random.below(4);
            sizes[k] = random.pick(&[0, 1, sizes[k] + 1, sizes[k].saturating_sub(1)]);
        }
    }
}

#[test]
fn damaged_blocks() {
    let mut random = Random(4);
    for _ in 0..tries() {
        let n = any_size(&mut random);
        let theirs = reduce(&drawn(&mut random, n)).unwrap();
        let mut block = write(&model::record::Record::of(&theirs), 512).unwrap().to_vec();
        for _ in 0..random.below(5) {
            let most = random.pick(&[4, 76, 512]);
            let (place, any) = (random.below(most), random.below(256) as u8);
            block[place] = random.pick(&[0, 1, 2, 3, block[place] ^ 1, any]);
        }
        if random.chance(70) {
            seal(&mut block);
        }
        if random.chance(5) {
            block.resize(random.pick(&[0, 1, 511, 513, 1024]), 0);
        }
        let expected = read(&block);
        assert_eq!(number(calls::check(&block)), expected.clone().err().unwrap_or(0));
        assert_eq!(Record::from_bytes(&block).is_ok(), expected.is_ok());
        copies(&block);
        let n = block.get(1).map_or(0, |&n| usize::from(n).min(64));
        for _ in 0..4 {
            let any = random.below(66);
            let long = random.pick(&[n, theirs.remaining.len(), any]);
            let most = random.pick(&[2, 2, 3]);
            let lent: Vec<u8> = (0..long).map(|_| random.below(most) as u8).collect();
            let out = random.pick(&[n, n, any]);
            both_ways(&block, &lent, out);
        }
    }
}

/// The crate and the model say the same, and a refusal leaves the output alone.
fn both_ways(block: &[u8], lent: &[u8], out: usize) {
    let mut plan = vec![9; out];
    let ours = calls::grow_back(block, lent, &mut plan).map(|()| plan.clone());
    assert!(ours.is_ok() || plan == vec![9; out]);
    assert_eq!(ours.map_err(|r| r.number()), grow_back_block(block, lent, out));
    let mut plan = vec![9; out];
    let ours = calls::project(block, lent, &mut plan).map(|()| plan.clone());
    assert!(ours.is_ok() || plan == vec![9; out]);
    assert_eq!(ours.map_err(|r| r.number()), project_block(block, lent, out));
}

#[test]
fn every_plan_of_small_objectives() {
    let mut random = Random(5);
    for k in 0..tries() / 8 {
        let n = if k % 10 == 9 { 14 } else { random.below(12) };
        every_plan(&drawn(&mut random, n));
    }
}

#[test]
fn several_threads_at_once() {
    let work = |seed: u64| {
        let mut random = Random(seed);
        for _ in 0..tries() / 8 {
            let n = any_size(&mut random);
            let o = drawn(&mut random, n);
            let mut lent = Lent::fresh();
            assert_eq!(number(lent.reduce(&o)), 0);
            same(&lent.as_model(), &reduce(&o).unwrap());
        }
    };
    std::thread::scope(|scope| {
        for seed in 10..14 {
            scope.spawn(move || work(seed));
        }
    });
}
