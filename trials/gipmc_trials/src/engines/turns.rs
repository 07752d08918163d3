//! What IC3 says, alone and by turns with bounded model checking and induction, and of which slices an observer is
//! told.

use crate::engines::small::{SHIFTER, made, register};
use crate::engines::stopper::Stopper;
use gipmc_circuits::Netlist;
use gipmc_engines::{Bounds, Verdict, decide, decide_by_turns};
use gipsat_cnf::Literal;
use gipsat_plain::Plain;
use std::alloc::{AllocError, Global};

// What is said, in short.
#[derive(Clone, Copy, PartialEq, Eq)]
enum Said {
    // There is a counterexample of so many moments.
    Fails(usize),
    // There is none, by an invariant.
    Safe,
    // There is none, by induction over so many moments.
    Inductive(usize),
    // There is none of at most so many transitions.
    Within(usize),
    // Nothing is known.
    Unknown,
}

// What a verdict says.
fn said_by(verdict: &Verdict) -> Said {
    match verdict {
        Verdict::Fails(trace) => Said::Fails(trace.inputs.len()),
        Verdict::Safe(_) => Said::Safe,
        Verdict::Inductive(k) => Said::Inductive(*k),
        Verdict::NoFailureWithin(depth) => Said::Within(*depth),
        Verdict::Unknown => Said::Unknown,
    }
}

// The gate that is true where both latches are.
fn full() -> Literal {
    Literal::new(4, true)
}

// A literal that is never true.
fn never() -> Literal {
    Literal::new(0, true)
}

// What IC3 says of the register by so many calls.
fn alone(alloc: Global, bad: Literal, calls: usize) -> Result<Said, AllocError> {
    let netlist = made(alloc, SHIFTER)?;
    let verdict = decide::<Plain, _>(alloc, &netlist, bad, calls, &mut ())?;
    Ok(said_by(&verdict))
}

// Bounds for both.
fn bounds(depth: usize, calls: usize) -> Bounds {
    Bounds {
        depth,
        limit: 1000,
        calls,
    }
}

// What both say by turns.
fn by_turns(alloc: Global, bad: Literal, depth: usize, calls: usize) -> Result<Said, AllocError> {
    let netlist = made(alloc, SHIFTER)?;
    said_by_turns(alloc, &netlist, bad, bounds(depth, calls))
}

fn said_by_turns(
    alloc: Global,
    netlist: &Netlist,
    bad: Literal,
    bounds: Bounds,
) -> Result<Said, AllocError> {
    let verdict = decide_by_turns::<Plain, _>(alloc, netlist, bad, bounds, &mut ())?;
    Ok(said_by(&verdict))
}

// Who decides about the register.
#[derive(Clone, Copy)]
enum Decider {
    // IC3 by so many calls.
    Alone(usize),
    // Bounded model checking to a depth, and IC3 by so many calls.
    ByTurns(usize, usize),
}

fn say(alloc: Global, bad: Literal, decider: Decider) -> Result<Said, AllocError> {
    match decider {
        Decider::Alone(calls) => alone(alloc, bad, calls),
        Decider::ByTurns(depth, calls) => by_turns(alloc, bad, depth, calls),
    }
}

// Who finds a shortest trace to where both latches are. IC3 finds one where bounded model checking waits.
const OF_FULL: &[Decider] = &[
    Decider::Alone(200),
    Decider::ByTurns(9, 200),
    Decider::ByTurns(0, 200),
];

// Who says that the bad literal which is a constant is never true. No call is needed.
const OF_NEVER: &[Decider] = &[
    Decider::Alone(200),
    Decider::ByTurns(9, 200),
    Decider::ByTurns(0, 0),
    Decider::Alone(0),
];

#[test]
fn finds_traces_and_invariants(rt: HostRuntime) -> Result<(), AllocError> {
    for &decider in OF_FULL {
        assert!(rt; say(rt.alloc(), full(), decider)? == Said::Fails(3));
    }
    for &decider in OF_NEVER {
        assert!(rt; say(rt.alloc(), never(), decider)? == Said::Safe);
    }
    // All calls are made.
    assert!(rt; say(rt.alloc(), full(), Decider::Alone(0))? == Said::Unknown);
    Ok(())
}

// What both say by turns of a register of 60 latches, which is full after as many transitions, by few calls.
fn of_a_long_register(alloc: Global, depth: usize) -> Result<Said, AllocError> {
    let netlist = register(alloc, 60)?;
    said_by_turns(alloc, &netlist, Literal::new(61, true), bounds(depth, 150))
}

#[test]
fn says_how_far_bounded_model_checking_came(rt: HostRuntime) -> Result<(), AllocError> {
    assert!(rt; of_a_long_register(rt.alloc(), 1)? == Said::Within(1));
    Ok(())
}

// Of how many slices of IC3 an observer is told that stops it behind the first one which finds nothing.
fn told_alone(
    alloc: Global,
    netlist: &Netlist,
    bad: Literal,
    calls: usize,
) -> Result<usize, AllocError> {
    let mut observer = Stopper::new(0, 0);
    let _ = decide::<Plain, _>(alloc, netlist, bad, calls, &mut observer)?;
    Ok(observer.slices)
}

// The same by turns.
fn told_by_turns(
    alloc: Global,
    netlist: &Netlist,
    bad: Literal,
    calls: usize,
) -> Result<usize, AllocError> {
    let mut observer = Stopper::new(0, 0);
    let _ = decide_by_turns::<Plain, _>(alloc, netlist, bad, bounds(0, calls), &mut observer)?;
    Ok(observer.slices)
}

// Both: alone, and by turns.
fn told(alloc: Global, bad: Literal, calls: usize) -> Result<(usize, usize), AllocError> {
    let netlist = made(alloc, SHIFTER)?;
    let alone = told_alone(alloc, &netlist, bad, calls)?;
    let by_turns = told_by_turns(alloc, &netlist, bad, calls)?;
    Ok((alone, by_turns))
}

#[test]
fn tells_of_each_slice(rt: HostRuntime) -> Result<(), AllocError> {
    // Of the one that finds a trace, and of the one behind which all calls are made; of none where a constant decides.
    for &(bad, calls, slices) in &[
        (full(), 200, 1),
        (full(), 0, 1),
        (never(), 200, 0),
        (never(), 0, 0),
    ] {
        assert!(rt; told(rt.alloc(), bad, calls)? == (slices, slices));
    }
    Ok(())
}
