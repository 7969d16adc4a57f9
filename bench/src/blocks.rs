//! Reading, writing, growing back and projecting, in blocks a second.
use crate::lent::Lent;
use crate::line;
use crate::sets::{sets, WITH_BLOCK};
use crate::times::best;
use balecreak::{calls, Refusal};
use model::objective::Objective;
use std::hint::black_box;

/// A batch, so that one reading of the clock is small beside it.
const BATCH: usize = 16;

pub fn told(budget: u64) -> String {
    let sparse = sets().into_iter().find(|s| s.n == 64 && s.name == "sparse 96").unwrap();
    let rows = [0, WITH_BLOCK].map(|switches| {
        row(&Objective { switches, ..sparse.objectives[0].clone() }, 10 * budget) + "\n"
    });
    let head = ["record", "read", "read+write", "write", "grow back", "project"];
    format!(
        "blocks a second, of a record with n 64; read is a check, read+write a copy, write the difference\n\
         of a copy and of one that its last test refuses; growing back and projecting read the block too\n\n{}\n{}\n\
         reduce of no decisions, both outputs and the block written: {:.2} microseconds a call\n",
        line(&head.map(String::from)),
        rows.concat(),
        nothing(10 * budget)
    )
}

fn row(o: &Objective, budget: u64) -> String {
    let mut lent = Lent::fresh();
    lent.reduce(o).unwrap();
    let block = lent.block;
    let answer = vec![1; lent.counts[6] as usize];
    let mut full = [0; 64];
    calls::grow_back(&block, &answer, &mut full).unwrap();
    let spoiled = with_a_step_too_many(block.clone());
    let (mut copied, mut kept, mut plan, mut out) = ([0; 512], [0; 512], [0; 64], [0; 64]);
    let [check, copy, unwritten, grow, project] = best(
        budget,
        [
            &mut batch(|| calls::check(black_box(&block))),
            &mut batch(|| calls::copy(black_box(&block), &mut copied)),
            &mut batch(|| match calls::copy(black_box(&spoiled), &mut kept) {
                Err(Refusal::BlockBody) => Ok(()),
                other => panic!("a spoiled block: {other:?}"),
            }),
            &mut batch(|| calls::grow_back(black_box(&block), &answer, &mut plan)),
            &mut batch(|| calls::project(black_box(&block), &full, &mut out)),
        ],
    );
    let cells = [check, copy, copy - unwritten, grow, project].map(a_second);
    let [check, copy, write, grow, project] = cells;
    line(&[format!("{} steps", block[2]), check, copy, write, grow, project])
}

/// The same block but for the last place of its steps, which no step uses, with its check right: a copy
/// reads it whole, finds that in its last test, and writes nothing.
fn with_a_step_too_many(mut block: Vec<u8>) -> Vec<u8> {
    block[459] = 1;
    let (s1, s2) = block[..508].iter().fold((1u16, 0u16), |(s1, s2), &byte| {
        let gained = s1.wrapping_add(byte.into());
        (gained, s2.wrapping_add(gained))
    });
    block[508..510].copy_from_slice(&s1.to_le_bytes());
    block[510..].copy_from_slice(&s2.to_le_bytes());
    block
}

/// From a batch's microseconds; a difference can be lost in what the machine does besides.
fn a_second(micros: f64) -> String {
    if micros > 0.0 {
        format!("{:.0}", BATCH as f64 / micros * 1e6)
    } else {
        String::from("-")
    }
}

/// A reduction of nothing, in microseconds: the tests of the lists, the outputs and the block are
/// all there is, so every call takes at least that.
fn nothing(budget: u64) -> f64 {
    let mut lent = Lent::fresh();
    let empty = Objective::default();
    let [write] = best(budget, [&mut batch(|| lent.reduce(black_box(&empty)))]);
    write / BATCH as f64
}

fn batch(mut call: impl FnMut() -> Result<(), Refusal>) -> impl FnMut() {
    move || (0..BATCH).for_each(|_| call().expect("no call of the bench is refused"))
}
