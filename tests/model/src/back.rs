//! "Growing back" and projecting, from a record or straight from a block.
use crate::record::{broken, read, Record};
use crate::wrong::{wrong, Wrong};

fn refusal(record: &Record, lent: &[u8], lent_long: usize, out: usize) -> u32 {
    if lent.len() != lent_long || out != record.n as usize {
        7
    } else if lent.iter().any(|&b| b > 1) {
        8
    } else {
        0
    }
}

/// From a record passed in: 12, 7, 8 in that order.
pub fn grow_back(record: &Record, answer: &[u8], out: usize) -> Result<Vec<u8>, u32> {
    if broken(record) {
        return Err(12);
    }
    match refusal(record, answer, record.remaining().len(), out) {
        0 => Ok(grown(record, answer)),
        number => Err(number),
    }
}

pub fn project(record: &Record, plan: &[u8], out: usize) -> Result<Vec<u8>, u32> {
    if broken(record) {
        return Err(12);
    }
    match refusal(record, plan, record.n as usize, out) {
        0 => Ok(projected(record, plan)),
        number => Err(number),
    }
}

/// From a block: 9, 10, 11, 12, 7, 8 in that order.
pub fn grow_back_block(block: &[u8], answer: &[u8], out: usize) -> Result<Vec<u8>, u32> {
    grow_back(&read(block)?, answer, out)
}

pub fn project_block(block: &[u8], plan: &[u8], out: usize) -> Result<Vec<u8>, u32> {
    project(&read(block)?, plan, out)
}

/// "Put in the remaining and fixed values, then the steps last to first, each by
/// its choice for the mask of its neighbours' values."
fn grown(record: &Record, answer: &[u8]) -> Vec<u8> {
    let fixed = |s: u8| s < 2 && !wrong(Wrong::FixedLost);
    let mut plan: Vec<u8> =
        record.states[..record.n as usize].iter().map(|&s| if fixed(s) { s } else { 0 }).collect();
    for (&i, &value) in record.remaining().iter().zip(answer) {
        plan[i] = value;
    }
    let mut steps = record.steps[..record.step_count as usize].to_vec();
    if !wrong(Wrong::FirstToLast) {
        steps.reverse();
    }
    for step in steps {
        let d = step[1] as usize;
        let mut mask = 0;
        for k in 0..d {
            let bit = if wrong(Wrong::MaskReversed) { d - 1 - k } else { k };
            mask |= plan[step[2 + k] as usize] << bit;
        }
        plan[step[0] as usize] = step[5] >> mask & 1;
    }
    plan
}

/// "writes the remaining entries of a full plan, ascending, at the front of an
/// output n long, then zeros"
fn projected(record: &Record, plan: &[u8]) -> Vec<u8> {
    let mut out: Vec<u8> = record.remaining().iter().map(|&i| plan[i]).collect();
    let tail = if wrong(Wrong::ProjectWhole) { &plan[out.len()..] } else { &[] };
    out.extend(tail);
    out.resize(record.n as usize, 0);
    out
}
