//! An independent second evaluator for the job sheet's rule checker, written
//! from documents 01 and 02 alone: the yardstick the product is compared with.

pub mod binary64;
pub mod board;
pub mod calls;
pub mod eval;
pub mod explain;
pub mod generate;
pub mod harness;
pub mod load;
pub mod model;
pub mod numbers;
pub mod origins;
pub mod profile;
pub mod read;
pub mod refusal;
pub mod renumber;
pub mod report;
pub mod rows;
pub mod statistics;
pub mod tree;
pub mod types;
pub mod typing;
pub mod values;
pub mod wording;
pub mod workloads;
