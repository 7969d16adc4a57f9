//! "The record block": writing, the check, reading, and when a body is broken.
use crate::objective::LARGEST;
use crate::run::Reduction;
use crate::wrong::{wrong, Wrong};

pub const BLOCK: usize = 512;

/// A record as it is passed in and handed back. Each step is the block's own six
/// bytes: decision, degree, three neighbours, choices.
#[derive(Clone, Debug, PartialEq)]
pub struct Record {
    pub n: u32,
    pub step_count: u32,
    pub constant: i64,
    pub states: [u8; 64],
    pub steps: [[u8; 6]; 64],
}

impl Record {
    pub fn of(reduction: &Reduction) -> Record {
        let mut record = Record {
            n: reduction.n,
            step_count: reduction.steps.len() as u32,
            constant: reduction.constant,
            states: [0; 64],
            steps: [[0; 6]; 64],
        };
        record.states[..reduction.states.len()].copy_from_slice(&reduction.states);
        for (bytes, step) in record.steps.iter_mut().zip(&reduction.steps) {
            bytes[0] = step.decision as u8;
            bytes[1] = step.neighbours.len() as u8;
            for (k, &j) in step.neighbours.iter().enumerate() {
                bytes[2 + k] = j as u8;
            }
            bytes[5] = step.choices.iter().enumerate().map(|(m, &c)| c << m).sum();
        }
        record
    }

    /// r, the number of state-2 decisions.
    pub fn remaining(&self) -> Vec<usize> {
        (0..self.n as usize).filter(|&i| self.states[i] == 2).collect()
    }
}

/// "s1 starts at 1, s2 at 0; for each of the first 508 bytes s1 gains the byte,
/// then s2 gains s1", 16-bit sums that wrap.
pub fn check(block: &[u8]) -> [u8; 4] {
    let (mut s1, mut s2) = (1u16, 0u16);
    for &byte in &block[..508] {
        s1 = s1.wrapping_add(byte as u16);
        s2 = s2.wrapping_add(s1);
    }
    let (one, two) = (s1.to_le_bytes(), s2.to_le_bytes());
    [one[0], one[1], two[0], two[1]]
}

pub fn seal(block: &mut [u8]) {
    let sums = check(block);
    block[508..512].copy_from_slice(&sums);
}

/// write_record: 9 for the lent block's length, 12 for the record passed in.
pub fn write(record: &Record, out: usize) -> Result<[u8; BLOCK], u32> {
    if out != BLOCK {
        return Err(9);
    }
    if broken(record) {
        return Err(12);
    }
    let mut block = [0; BLOCK];
    block[0] = 3;
    block[1] = record.n as u8;
    block[2] = record.step_count as u8;
    block[4..12].copy_from_slice(&record.constant.to_le_bytes());
    block[12..76].copy_from_slice(&record.states);
    for (k, step) in record.steps.iter().enumerate() {
        block[76 + 6 * k..82 + 6 * k].copy_from_slice(step);
    }
    seal(&mut block);
    Ok(block)
}

/// read_record: 9, 10, 11, 12 in that order.
pub fn read(block: &[u8]) -> Result<Record, u32> {
    if block.len() != BLOCK {
        return Err(9);
    }
    if check(block) != block[508..512] {
        return Err(10);
    }
    if block[0] != 3 {
        return Err(11);
    }
    let record = fields(block);
    let byte_three = block[3] != 0 && !wrong(Wrong::ByteThree);
    let tail = block[460..508].iter().any(|&b| b != 0) && !wrong(Wrong::TailZero);
    if byte_three || tail || broken(&record) {
        return Err(12);
    }
    Ok(record)
}

/// The fields as they stand, broken or not.
pub fn fields(block: &[u8]) -> Record {
    let mut steps = [[0; 6]; 64];
    for (k, step) in steps.iter_mut().enumerate() {
        step.copy_from_slice(&block[76 + 6 * k..82 + 6 * k]);
        if wrong(Wrong::OlderLayout) {
            step[1..].rotate_left(1);
        }
    }
    Record {
        n: block[1] as u32,
        step_count: block[2] as u32,
        constant: i64::from_le_bytes(block[4..12].try_into().unwrap()),
        states: block[12..76].try_into().unwrap(),
        steps,
    }
}

/// "A body is broken unless ...", said of the fields. Byte 3 and bytes 460-507
/// have no field; a block's reader asks for them itself.
pub fn broken(record: &Record) -> bool {
    if record.n > 64 || record.step_count > 64 {
        return true;
    }
    let (n, count) = (record.n as usize, record.step_count as usize);
    let constant = record.constant.abs_diff(0) > LARGEST as u64;
    let states = record.states[..n].iter().any(|&s| s > 3);
    let past_n = record.states[n..].iter().any(|&s| s != 0);
    let past_steps = record.steps[count..].iter().any(|step| *step != [0; 6]);
    (constant && !wrong(Wrong::ConstantRange))
        || (states && !wrong(Wrong::StatesToThree))
        || (past_n && !wrong(Wrong::ZeroPastN))
        || (past_steps && !wrong(Wrong::ZeroPastSteps))
        || (0..=255).any(|i| not_eliminated_once(record, i))
        || (0..count).any(|k| step_broken(record, k))
}

/// "the state-3 decisions are exactly the steps' decisions, each once"
fn not_eliminated_once(record: &Record, i: u8) -> bool {
    let steps = &record.steps[..record.step_count as usize];
    let times = steps.iter().filter(|step| step[0] == i).count();
    let gone = (i as u32) < record.n && record.states[i as usize] == 3;
    (times > 0 && !gone && !wrong(Wrong::StepIsState3))
        || (gone && times == 0 && !wrong(Wrong::State3HasStep))
        || (times > 1 && !wrong(Wrong::StepsOnce))
}

fn step_broken(record: &Record, k: usize) -> bool {
    let [_, degree, neighbours @ .., choices] = record.steps[k];
    let d = degree as usize;
    if d > 3 {
        return true;
    }
    let used = &neighbours[..d];
    let unused_bytes = neighbours[d..].iter().any(|&j| j != 0);
    let unused_bits = (choices as u32) >> (1 << d) != 0;
    let not_ascending = used.windows(2).any(|pair| pair[0] >= pair[1]);
    (unused_bytes && !wrong(Wrong::UnusedNeighbours))
        || (unused_bits && !wrong(Wrong::UnusedChoices))
        || (not_ascending && !wrong(Wrong::Ascending))
        || used.iter().any(|&j| neighbour_broken(record, k, j))
}

/// "below n, aren't fixed, and aren't the decision of this or an earlier step"
fn neighbour_broken(record: &Record, k: usize, j: u8) -> bool {
    let n = record.n as usize;
    let fixed = record.states[..n].get(j as usize).is_some_and(|&s| s < 2);
    let earlier = record.steps[..k].iter().any(|step| step[0] == j);
    (j as usize >= n && !wrong(Wrong::BelowN))
        || (fixed && !wrong(Wrong::NotFixed))
        || (record.steps[k][0] == j && !wrong(Wrong::NotThisStep))
        || (earlier && !wrong(Wrong::NotEarlierStep))
}
