//! The given Rust's `reduce`, with stand-ins for what it names. With the feature
//! `without_clock` its calls of the clock are taken out, for timing.
#![allow(dead_code, unused_imports, private_interfaces)]

pub mod ask;
mod stand_ins;

pub type FixedVarMap = std::collections::HashMap<usize, usize>;
pub use stand_ins::qubo;
pub mod branch_stratagy {
    pub use crate::stand_ins::choices::BranchStrategy;
}
pub mod branch_subproblem {
    pub use crate::stand_ins::choices::SubProblemSelection;
}
pub mod heuristic_stratagy {
    pub use crate::stand_ins::choices::HeuristicSelection;
}
include!(concat!(env!("OUT_DIR"), "/given/modules.rs"));
