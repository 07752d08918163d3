//! How far bounded model checking goes.

use crate::engines::small::{SHIFTER, made};
use crate::engines::stopper::Stopper;
use gipmc_engines::{Bounds, Verdict, search};
use gipsat_cnf::Literal;
use gipsat_plain::Plain;
use std::alloc::{AllocError, Global};

// What a search says, in short.
#[derive(Clone, Copy, PartialEq, Eq)]
enum Found {
    // A trace of so many moments.
    Trace(usize),
    // No failure within so many transitions.
    Within(usize),
    // Something else.
    Other,
}

// What is said where this is the verdict.
fn found_by(verdict: &Verdict) -> Found {
    match verdict {
        Verdict::Fails(trace) => Found::Trace(trace.inputs.len()),
        Verdict::NoFailureWithin(depth) => Found::Within(*depth),
        _ => Found::Other,
    }
}

// What a search to one depth says of the register, where an observer stops it before another.
fn told(alloc: Global, bad: Literal, depth: usize, stop: usize) -> Result<Found, AllocError> {
    let netlist = made(alloc, SHIFTER)?;
    let bounds = Bounds {
        depth,
        limit: 100,
        calls: 0,
    };
    let verdict = search::<Plain, _>(alloc, &netlist, bad, bounds, &mut Stopper::new(0, stop))?;
    Ok(found_by(&verdict))
}

// The gate that is true where both latches are.
const FULL: u8 = 4;

// The bad literal's variable, a depth, the depth where an observer stops, and what is found.
const SEARCHES: &[(u8, usize, usize, Found)] = &[
    // A shortest trace.
    (FULL, 9, 9, Found::Trace(3)),
    (FULL, 2, 9, Found::Trace(3)),
    // The greatest depth ends it.
    (FULL, 1, 9, Found::Within(1)),
    (FULL, 0, 9, Found::Within(0)),
    // The observer stops it.
    (FULL, 9, 2, Found::Within(1)),
    (FULL, 9, 0, Found::Within(0)),
    // The variable is not there.
    (9, 5, 9, Found::Other),
];

#[test]
fn finds_a_shortest_trace_as_far_as_it_may_go(rt: HostRuntime) -> Result<(), AllocError> {
    for &(variable, depth, stop, found) in SEARCHES {
        let bad = Literal::new(u32::from(variable), true);
        assert!(rt; told(rt.alloc(), bad, depth, stop)? == found);
    }
    Ok(())
}
