//! Tests of the containers, of the lines of `gip` and of `giputils_refusing`: the examples of the READMEs, what the
//! allocator for tests refuses, counts and passes on, and calls that are refused memory, request by request.
//!
//! They hold what no clause can say: that a call answers want of memory only where a request was refused, how many
//! requests it makes, and that some calls make none. What a refused call leaves is proved. They stand apart from the
//! libraries, so that these are not proved twice for them.
#![tactic(auto)]

#[cfg(test)]
mod base;
#[cfg(test)]
mod bits;
#[cfg(test)]
mod examples;
pub mod heap;
#[cfg(test)]
mod lines;
#[cfg(test)]
mod refusing;
#[cfg(test)]
mod uses;
