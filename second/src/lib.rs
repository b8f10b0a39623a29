//! Constant products as clauses: plan a recipe for `c`, check one, write its
//! clauses, print them as a DIMACS file, make one pass over words. Written from
//! documents 01 and 02 alone (of 02, a, b, c and i so far), to stand beside the
//! first engine and be compared with it.

#![forbid(unsafe_code)]

mod bad_lines;
mod bit;
pub mod cases;
mod checker;
mod column;
mod edges;
mod line;
mod number;
mod pass_stream;
mod passes;
mod planner;
mod printer;
mod propagator;
mod random;
mod refusal;
mod split;
pub mod streams;
mod truth;
mod writer;

pub use checker::{check, claimed};
pub use planner::plan;
pub use printer::{print, print_recipe};
pub use propagator::propagate;
pub use refusal::Refusal;
pub use writer::{write, write_plain, Counts};
