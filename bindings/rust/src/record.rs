//! A record: how to grow an answer back.
use crate::{calls, Refusal, BLOCK, MOST_DECISIONS};

/// What became of a decision.
#[derive(Clone, Copy, Debug, PartialEq, Eq)]
pub enum State {
    /// Fixed to a value before the run.
    Fixed(bool),
    /// Left to the solver.
    Remaining,
    /// Eliminated: a step grows it back.
    Eliminated,
}

/// How one decision follows from its neighbours.
#[derive(Clone, Debug, PartialEq, Eq)]
pub struct Step {
    /// The decision.
    pub decision: u8,
    /// The decisions it was tied to, ascending, at most three.
    pub neighbours: Vec<u8>,
    /// Its value for each mask of theirs; bit k of a mask is neighbour k.
    pub choices: Vec<bool>,
}

/// 512 bytes that passed every test of the library. Store them, send them, and read them again with
/// [`from_bytes`](Record::from_bytes).
#[derive(Clone, Debug, PartialEq, Eq)]
pub struct Record([u8; BLOCK]);

impl Record {
    pub(crate) fn written(block: [u8; BLOCK]) -> Record {
        Record(block)
    }

    /// Reads a record again. Refuses with [`Refusal::BlockLength`], [`Refusal::BlockCheck`],
    /// [`Refusal::BlockEdition`] or [`Refusal::BlockBody`]. One or two damaged bytes never pass.
    pub fn from_bytes(block: &[u8]) -> Result<Record, Refusal> {
        calls::check(block)?;
        Ok(Record(block.try_into().map_err(|_| Refusal::BlockLength)?))
    }

    /// The bytes to keep.
    pub fn as_bytes(&self) -> &[u8; BLOCK] {
        &self.0
    }

    /// Writes the record anew into 512 lent bytes, say those of a buffer that holds many: the same
    /// bytes as [`as_bytes`](Record::as_bytes). Refuses with [`Refusal::BlockLength`].
    pub fn write_to(&self, out: &mut [u8]) -> Result<(), Refusal> {
        calls::copy(&self.0, out)
    }

    /// How many decisions a full plan has.
    pub fn decisions(&self) -> usize {
        usize::from(self.0[1]).min(MOST_DECISIONS)
    }

    /// What every plan costs besides what is left.
    pub fn constant(&self) -> i64 {
        let mut bytes = [0; 8];
        bytes.copy_from_slice(&self.0[4..12]);
        i64::from_le_bytes(bytes)
    }

    /// What became of a decision; none where there is no such decision.
    pub fn state(&self, decision: usize) -> Option<State> {
        let states = &self.0[12..12 + self.decisions()];
        Some(match states.get(decision)? {
            0 => State::Fixed(false),
            1 => State::Fixed(true),
            2 => State::Remaining,
            _ => State::Eliminated,
        })
    }

    /// The decisions that are left, ascending: an answer has one byte for each.
    pub fn remaining(&self) -> impl Iterator<Item = usize> + '_ {
        (0..self.decisions()).filter(|&i| self.state(i) == Some(State::Remaining))
    }

    /// The steps in the order of the run; growing back plays them last to first.
    pub fn steps(&self) -> impl Iterator<Item = Step> + '_ {
        let count = usize::from(self.0[2]).min(MOST_DECISIONS);
        self.0[76..460].chunks_exact(6).take(count).map(|bytes| {
            let degree = usize::from(bytes[1]).min(3);
            Step {
                decision: bytes[0],
                neighbours: bytes[2..2 + degree].to_vec(),
                choices: (0..1 << degree).map(|mask| bytes[5] >> mask & 1 == 1).collect(),
            }
        })
    }

    /// Grows an answer back into a full plan. Refuses with [`Refusal::PlanLength`] or
    /// [`Refusal::PlanByte`].
    pub fn grow_back(&self, answer: &[u8]) -> Result<Vec<u8>, Refusal> {
        let mut plan = vec![0; self.decisions()];
        calls::grow_back(&self.0, answer, &mut plan)?;
        Ok(plan)
    }

    /// A full plan's entries for the remaining decisions. Refuses with [`Refusal::PlanLength`] or
    /// [`Refusal::PlanByte`].
    pub fn project(&self, plan: &[u8]) -> Result<Vec<u8>, Refusal> {
        let mut out = vec![0; self.decisions()];
        calls::project(&self.0, plan, &mut out)?;
        out.truncate(self.remaining().count());
        Ok(out)
    }
}

impl TryFrom<&[u8]> for Record {
    type Error = Refusal;

    fn try_from(block: &[u8]) -> Result<Record, Refusal> {
        Record::from_bytes(block)
    }
}
