//! Tests of the crates of the model checker: circuits and what is made of them, engines, and answers.
//!
//! They are one crate, since its code is that of the whole model checker, which is made and compiled once for each crate.
#![tactic(auto)]

#[cfg(test)]
mod circuits;
#[cfg(test)]
mod engines;
#[cfg(test)]
mod task;
