//! What random simulation finds.

use crate::engines::small::{SHIFTER, made};
use crate::engines::stopper::Stopper;
use gipmc_circuits::{And, Circuit, Latch, Netlist};
use gipmc_engines::{Tries, simulate};
use gipsat_cnf::Literal;
use std::alloc::{AllocError, Global};

// How many moments the trace has that simulation finds for the register, and of how many rounds an observer was told
// that stops it after some.
fn found(
    alloc: Global,
    moments: usize,
    rounds: usize,
    stop: usize,
) -> Result<(Option<usize>, usize), AllocError> {
    let netlist = made(alloc, SHIFTER)?;
    let tries = Tries {
        seed: 7,
        rounds,
        moments,
    };
    let mut observer = Stopper::new(stop, 0);
    let trace = simulate(alloc, &netlist, Literal::new(4, true), tries, &mut observer)?;
    Ok((trace.map(|trace| trace.inputs.len()), observer.told))
}

// The moments of a run, the rounds, the round where an observer stops, and what is found and told.
const RUNS: &[(usize, usize, usize, (Option<usize>, usize))] = &[
    // Of the runs one in four has the inputs for a trace.
    (9, 1, 9, (Some(3), 0)),
    // The budget ends it.
    (2, 9, 99, (None, 9)),
    (9, 0, 99, (None, 0)),
    // The observer stops it.
    (2, 255, 3, (None, 3)),
];

#[test]
fn finds_a_trace_as_long_as_it_may(rt: HostRuntime) -> Result<(), AllocError> {
    for &(moments, rounds, stop, wanted) in RUNS {
        assert!(rt; found(rt.alloc(), moments, rounds, stop)? == wanted);
    }
    Ok(())
}

// The gate of two variables.
fn both(output: u8, left: u8, right: u8) -> And {
    And {
        output: u32::from(output),
        left: Literal::new(u32::from(left), true),
        right: Literal::new(u32::from(right), true),
    }
}

// Gate 11 is true where latches 1 to 3, which may begin at either value, and inputs 4 to 6 are.
fn all_at_once(alloc: Global) -> Result<Netlist, AllocError> {
    let mut circuit = Circuit::new(alloc);
    for &variable in &[1u8, 2, 3] {
        circuit.latches.push(Latch {
            variable: u32::from(variable),
            next: Literal::new(u32::from(variable), false),
            reset: None,
        })?;
    }
    for &variable in &[4u32, 5, 6] {
        circuit.inputs.push(variable)?;
    }
    for &(output, left, right) in &[(7, 1, 2), (8, 7, 3), (9, 8, 4), (10, 9, 5), (11, 10, 6)] {
        circuit.gates.push(both(output, left, right))?;
    }
    Netlist::new(alloc, circuit)?.ok_or(AllocError)
}

// How many moments the trace has that one round finds for this circuit.
fn found_at_once(alloc: Global) -> Result<Option<usize>, AllocError> {
    let netlist = all_at_once(alloc)?;
    let tries = Tries {
        seed: 1,
        rounds: 1,
        moments: 9,
    };
    let trace = simulate(alloc, &netlist, Literal::new(11, true), tries, &mut ())?;
    Ok(trace.map(|trace| trace.inputs.len()))
}

#[test]
fn draws_a_trace_again(rt: HostRuntime) -> Result<(), AllocError> {
    // Of the runs one in 64 has these values at the first moment: a trace with others would be refused.
    assert!(rt; found_at_once(rt.alloc())? == Some(1));
    Ok(())
}
