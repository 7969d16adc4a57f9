//! The numbers given back when a call says no.
use std::fmt;

/// Why a call said no. Whatever it was lent is as it was.
#[derive(Clone, Copy, Debug, PartialEq, Eq, Hash)]
#[non_exhaustive]
pub enum Refusal {
    /// 1: over 64 decisions.
    TooManyDecisions,
    /// 2: a list or an output of the wrong length, or over 4,096 terms.
    Lengths,
    /// 3: a term names a decision that is not there.
    TermIndex,
    /// 4: a fixing byte over 2.
    FixingByte,
    /// 5: a switch bit above bit 3.
    Switch,
    /// 6: the absolute values of all weights add up to more than 2^40.
    Size,
    /// 7: an answer or plan of the wrong length, or an output that is not n long.
    PlanLength,
    /// 8: an answer or plan byte over 1.
    PlanByte,
    /// 9: a block that is not 512 bytes.
    BlockLength,
    /// 10: the block's check is wrong: it was damaged.
    BlockCheck,
    /// 11: a block of another edition.
    BlockEdition,
    /// 12: the check is right but the body is not one that a reduction writes.
    BlockBody,
    /// A number that this crate does not know: it was linked with another library.
    Unknown(u32),
}

impl Refusal {
    /// What a call's number says: 0 is no refusal.
    pub fn from_number(number: u32) -> Result<(), Refusal> {
        Err(match number {
            0 => return Ok(()),
            1 => Refusal::TooManyDecisions,
            2 => Refusal::Lengths,
            3 => Refusal::TermIndex,
            4 => Refusal::FixingByte,
            5 => Refusal::Switch,
            6 => Refusal::Size,
            7 => Refusal::PlanLength,
            8 => Refusal::PlanByte,
            9 => Refusal::BlockLength,
            10 => Refusal::BlockCheck,
            11 => Refusal::BlockEdition,
            12 => Refusal::BlockBody,
            other => Refusal::Unknown(other),
        })
    }

    /// The number, as the C header names it.
    pub fn number(self) -> u32 {
        match self {
            Refusal::TooManyDecisions => 1,
            Refusal::Lengths => 2,
            Refusal::TermIndex => 3,
            Refusal::FixingByte => 4,
            Refusal::Switch => 5,
            Refusal::Size => 6,
            Refusal::PlanLength => 7,
            Refusal::PlanByte => 8,
            Refusal::BlockLength => 9,
            Refusal::BlockCheck => 10,
            Refusal::BlockEdition => 11,
            Refusal::BlockBody => 12,
            Refusal::Unknown(number) => number,
        }
    }
}

impl fmt::Display for Refusal {
    fn fmt(&self, f: &mut fmt::Formatter<'_>) -> fmt::Result {
        let says = match self {
            Refusal::TooManyDecisions => "the objective has over 64 decisions",
            Refusal::Lengths => {
                "a list or an output has the wrong length, or there are over 4,096 terms"
            }
            Refusal::TermIndex => "a term names a decision that is not there",
            Refusal::FixingByte => "a fixing byte is over 2",
            Refusal::Switch => "a switch bit above bit 3 is set",
            Refusal::Size => "the absolute values of all weights add up to more than 2^40",
            Refusal::PlanLength => {
                "an answer or plan has the wrong length, or its output is not n long"
            }
            Refusal::PlanByte => "an answer or plan byte is over 1",
            Refusal::BlockLength => "the record block is not 512 bytes long",
            Refusal::BlockCheck => "the record block's check is wrong: it was damaged",
            Refusal::BlockEdition => "the record block is of another edition",
            Refusal::BlockBody => "the record block's body is broken",
            Refusal::Unknown(_) => "the library gave a number that this crate does not know",
        };
        write!(f, "refused {}: {says}", self.number())
    }
}

impl std::error::Error for Refusal {}
