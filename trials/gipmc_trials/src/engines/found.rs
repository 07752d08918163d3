//! What IC3 finds, replayed or certified.

use gipmc_circuits::{Netlist, Verdict, certify, replay};
use gipmc_ic3::Found;
use gipsat_cnf::Literal;
use gipsat_plain::Plain;
use std::alloc::{AllocError, Global};

/// What is believed of a circuit.
#[derive(Clone, Copy, PartialEq, Eq)]
pub enum Answer {
    /// There is a counterexample of so many moments.
    Fails(usize),
    /// There is none.
    Safe,
    /// Nothing was found.
    Unknown,
    /// A trace that does not fail, or an invariant that is none.
    Wrong,
}

/// What is believed where this was found: a trace is replayed, and an invariant is certified.
pub fn checked(
    alloc: Global,
    netlist: &Netlist,
    bad: Literal,
    found: &Found,
) -> Result<Answer, AllocError> {
    match found {
        Found::Trace(trace) if replay(alloc, netlist, bad, trace)? => {
            Ok(Answer::Fails(trace.inputs.len()))
        }
        Found::Invariant(invariant) => {
            match certify::<Plain>(alloc, netlist, bad, invariant, 1000)? {
                Verdict::Certified => Ok(Answer::Safe),
                _ => Ok(Answer::Wrong),
            }
        }
        Found::Trace(_) => Ok(Answer::Wrong),
        Found::Open => Ok(Answer::Unknown),
    }
}
