//! The same objectives, timed three ways in turn.
use crate::lent::Lent;
use crate::sets::Set;
use model::objective::Objective;
use model::text::{objective_text, with_semicolons};
use std::hint::black_box;
use std::time::{Duration, Instant};

/// Microseconds a call, and what the run did.
pub struct Times {
    pub ours: f64,
    pub rust: f64,
    pub still: f64,
    pub units: f64,
    pub remaining: f64,
}

pub fn times(set: &Set, switches: u32, budget: u64) -> Times {
    let mut sum = Times { ours: 0.0, rust: 0.0, still: 0.0, units: 0.0, remaining: 0.0 };
    let share = 1.0 / set.objectives.len() as f64;
    for drawn in &set.objectives {
        let o = Objective { switches, ..drawn.clone() };
        let line = with_semicolons(&objective_text(&o));
        let (asked, still) = (oracle::ask::read(&line), without_clock::ask::read(&line));
        let mut lent = Lent::fresh();
        let least = best(
            budget,
            [
                &mut || lent.reduce(&o).expect("no objective of the sets is refused"),
                &mut || {
                    black_box(oracle::ask::takes_steps(&asked));
                },
                &mut || {
                    black_box(without_clock::ask::takes_steps(&still));
                },
            ],
        );
        sum.ours += least[0] * share;
        sum.rust += least[1] * share;
        sum.still += least[2] * share;
        sum.units += f64::from(lent.counts[12]) * share;
        sum.remaining += f64::from(lent.counts[6]) * share;
    }
    sum
}

/// The least time of each, in microseconds, taken in turn until the budget is used: at least 5 times.
pub fn best<const K: usize>(budget: u64, mut calls: [&mut dyn FnMut(); K]) -> [f64; K] {
    let mut least = [f64::MAX; K];
    let began = Instant::now();
    let mut turns = 0;
    while turns < 5 || began.elapsed() < Duration::from_millis(budget) {
        for (least, call) in least.iter_mut().zip(&mut calls) {
            let start = Instant::now();
            call();
            *least = least.min(start.elapsed().as_secs_f64() * 1e6);
        }
        turns += 1;
    }
    least
}
