//! Valid blocks from real runs, on which the records and back lists stand.
use crate::named::parsed;
use model::generator::objective;
use model::objective::Objective;
use model::random::Random;
use model::record::{write, Record, BLOCK};
use model::run::reduce;

pub struct Base {
    pub name: &'static str,
    pub block: [u8; BLOCK],
    pub record: Record,
}

pub fn bases() -> Vec<Base> {
    let mut random = Random(23);
    let mut list = vec![
        base("empty, n 0", &parsed("0 15 0 0;;;")),
        base("D", &parsed("2 1 100 1;-3 -4;2 2;0 1 5;")),
        base("J", &parsed("4 8 100 3;0 0 -1 -1;2 2 2 2;0 1 1;1 2 2;2 3 -1;")),
        base("F at budget 1", &parsed("4 3 1 3;-3 0 0 0;2 2 2 2;0 1 2;0 2 2;0 3 2;")),
        base("64 steps", &path(64, 1, 2)),
        base("64 fixed", &path(64, 1, 1)),
        base("64 remaining", &path(64, 0, 2)),
        base("constant 2^40", &parsed("1 1 9 0;1099511627776;1;")),
        base("constant -2^40", &parsed("1 1 9 0;-1099511627776;2;")),
    ];
    list.push(drawn(&mut random, "64, all states, steps of each degree", 64, 10));
    list.push(drawn(&mut random, "20, all states, steps of each degree", 20, 3));
    list.push(drawn(&mut random, "12, all states, steps of each degree", 12, 1));
    list
}

fn base(name: &'static str, o: &Objective) -> Base {
    let record = Record::of(&reduce(o).unwrap());
    let block = write(&record, BLOCK).expect("a run's record is not broken");
    Base { name, block, record }
}

/// A path; the fixings are all the given byte, or 0 and 1 in turn where it is 1.
fn path(n: usize, switches: u32, fixing: u8) -> Objective {
    let mut o = Objective { n: n as u32, switches, budget: 4160, ..Objective::default() };
    o.weights = (0..n).map(|i| (i * 5 % 7) as i64 - 3).collect();
    o.fixings = (0..n).map(|i| if fixing == 1 { (i % 2) as u8 } else { fixing }).collect();
    (1..n).for_each(|i| o.push_term(i - 1, i, (i * 3 % 5) as i64 - 2));
    o
}

/// Draws until each state and each degree occurs.
fn drawn(random: &mut Random, name: &'static str, n: usize, least: usize) -> Base {
    loop {
        let mut o = objective(random, n);
        // Cut short half way, so that decisions remain as well.
        let units = reduce(&o).unwrap().units;
        o.budget = units - units / 3;
        let found = base(name, &o);
        let states = &found.record.states[..n];
        let times = |s: u8| states.iter().filter(|&&state| state == s).count();
        let steps = &found.record.steps[..found.record.step_count as usize];
        let degrees = (0..4).all(|d| steps.iter().any(|step| step[1] == d));
        if degrees && (0..4).all(|s| times(s) >= least.min(if s < 2 { 2 } else { least })) {
            return found;
        }
    }
}
