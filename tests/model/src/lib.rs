//! A second model of the exact rules, after the sentences of the paper that
//! decides them; it shares no code with the Rust that the oracle runs. Each file
//! answers to one of the paper's sections; plain lists, whole numbers, no speed.
pub mod back;
pub mod block;
pub mod generator;
pub mod graph;
pub mod local;
pub mod objective;
pub mod random;
pub mod record;
pub mod run;
pub mod shapes;
pub mod text;
pub mod told;
pub mod wrong;
