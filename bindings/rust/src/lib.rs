//! Shrinks an objective over 0/1 decisions exactly, and grows the answers of the small objective
//! back into full plans that cost the same.
//!
//! The work is done by a static library that is proved to give what its rules say, for every
//! input. This crate is a thin, safe cover: no call panics, and a call that says no leaves
//! everything it was lent as it was.
//!
//! A hall of four seat blocks. Opening block `i` costs its weight (takings are negative); two that
//! are both open cost their pair's weight besides. The box office has already sold block 3.
//!
//! ```
//! use balecreak::{Objective, Record};
//!
//! let hall = Objective::new([-3, -4, -2, -6]).pair(0, 1, 5).pair(1, 2, 3).pair(2, 3, 4).fix(3, true);
//!
//! // An ample budget leaves nothing to solve: the constant is the least cost.
//! assert_eq!(hall.reduce()?.constant(), -10);
//!
//! // One unit leaves blocks 1 and 2.
//! let reduction = hall.budget(1).reduce()?;
//! assert_eq!(reduction.constant(), -9);
//! assert_eq!(reduction.linear(), [-1, 2]);
//! assert_eq!(reduction.edge(0, 1), 3);
//!
//! // Keep these 512 bytes: they are all that growing back needs.
//! let mut stored = [0; 512];
//! reduction.record().write_to(&mut stored)?;
//! assert_eq!(&stored, reduction.record().as_bytes());
//!
//! // Solve what is left: opening block 1 alone is cheapest ...
//! let answer = [1, 0];
//! assert_eq!(reduction.cost(&answer), -10);
//!
//! // ... and grow the answer back, today or years from now.
//! let record = Record::from_bytes(&stored)?;
//! assert_eq!(record.grow_back(&answer)?, [0, 1, 0, 1]);
//!
//! // A full plan's entries for the decisions that are left: last night's plan, to start a solver from.
//! assert_eq!(record.project(&[1, 1, 0, 1])?, [1, 0]);
//! # Ok::<(), balecreak::Refusal>(())
//! ```
#![warn(missing_docs)]

pub mod calls;
mod objective;
mod record;
mod reduction;
mod refusal;

pub use objective::{Objective, Switches};
pub use record::{Record, State, Step};
pub use reduction::{Counts, Reduction};
pub use refusal::Refusal;

/// The length of a record block in bytes.
pub const BLOCK: usize = 512;
/// The most decisions an objective can have, and the length of the linear output.
pub const MOST_DECISIONS: usize = 64;
/// The length of the edge output.
pub const EDGES: usize = 4096;
/// The length of the list of counts.
pub const COUNTS: usize = 14;
