//! Explicit-state search, alone.

use crate::engines::small::{THREE, made, register};
use gipmc_circuits::{And, Circuit, Latch, Netlist};
use gipmc_engines::{Engine, Plan, Verdict, check};
use gipsat_cnf::Literal;
use gipsat_plain::Plain;
use std::alloc::{AllocError, Global};

// What it finds out about a literal, in short.
#[derive(Clone, Copy, PartialEq, Eq)]
enum Said {
    // A trace of so many moments fails.
    Fails(usize),
    // So many clauses are an invariant.
    Safe(usize),
    // There are too many states, or latches, or inputs.
    Open,
}

fn said_of(alloc: Global, netlist: &Netlist, bad: u8) -> Result<Said, AllocError> {
    let plan = Plan {
        engine: Engine::Explicit,
        ..Plan::default()
    };
    let bad = Literal::new(u32::from(bad), true);
    Ok(
        match check::<Plain, _>(alloc, netlist, bad, &plan, &mut ())? {
            Verdict::Fails(trace) => Said::Fails(trace.inputs.len()),
            Verdict::Safe(invariant) => Said::Safe(invariant.len()),
            _ => Said::Open,
        },
    )
}

// Latch 200 holds whether all of so many inputs were true, and is false at first.
fn conjunction(alloc: Global, inputs: u8) -> Result<Netlist, AllocError> {
    let mut circuit = Circuit::new(alloc);
    let mut all = Literal::new(0, false);
    for place in 0..inputs {
        let input = u32::from(place) + 1;
        let output = input + 300;
        circuit.inputs.push(input)?;
        circuit.gates.push(And {
            output,
            left: all,
            right: Literal::new(input, true),
        })?;
        all = Literal::new(output, true);
    }
    circuit.latches.push(Latch {
        variable: 200,
        next: all,
        reset: Some(false),
    })?;
    Netlist::new(alloc, circuit)?.ok_or(AllocError)
}

// So many latches that keep what they hold at first, which is anything.
fn kept(alloc: Global, latches: u8) -> Result<Netlist, AllocError> {
    let mut circuit = Circuit::new(alloc);
    for place in 0..latches {
        let variable = u32::from(place) + 1;
        circuit.latches.push(Latch {
            variable,
            next: Literal::new(variable, true),
            reset: None,
        })?;
    }
    Netlist::new(alloc, circuit)?.ok_or(AllocError)
}

#[test]
fn tries_all_values_of_the_inputs(rt: HostRuntime) -> Result<(), AllocError> {
    for &(inputs, wanted) in &[
        (1, Said::Fails(2)),
        (6, Said::Fails(2)),
        (7, Said::Fails(2)),
        (10, Said::Fails(2)),
        (11, Said::Open),
    ] {
        let netlist = conjunction(rt.alloc(), inputs)?;
        assert!(rt; said_of(rt.alloc(), &netlist, 200)? == wanted);
    }
    Ok(())
}

#[test]
fn begins_at_all_first_states(rt: HostRuntime) -> Result<(), AllocError> {
    for &(latches, wanted) in &[(1, Said::Fails(1)), (10, Said::Fails(1)), (11, Said::Open)] {
        let netlist = kept(rt.alloc(), latches)?;
        assert!(rt; said_of(rt.alloc(), &netlist, latches)? == wanted);
    }
    Ok(())
}

#[test]
fn comes_to_states_that_are_far_away(rt: HostRuntime) -> Result<(), AllocError> {
    // The last latch of the register is one once an input was, in half of the states.
    for &(latches, wanted) in &[
        (1, Said::Fails(2)),
        (12, Said::Fails(13)),
        (18, Said::Open),
        (64, Said::Open),
    ] {
        let netlist = register(rt.alloc(), latches)?;
        let last = u8::saturating_add(latches, 1);
        assert!(rt; said_of(rt.alloc(), &netlist, last)? == wanted);
    }
    Ok(())
}

#[test]
fn excludes_the_states_that_are_left(rt: HostRuntime) -> Result<(), AllocError> {
    // The counter comes to three of its four states: one clause excludes the last one, in which gate 6 is true.
    let netlist = made(rt.alloc(), THREE)?;
    assert!(rt; said_of(rt.alloc(), &netlist, 6)? == Said::Safe(1));
    Ok(())
}
