//! Longer circuits by which liveness is shown, and literals that are of no variable.

use gipmc_circuits::{Netlist, Trace, replay};
use gipmc_reduce::{counting, lasso_of, to_safety};
use gipmc_uses::pages::arbiters::{arbiter, counterexample, is_served};
use gipsat_cnf::Literal;
use std::alloc::{AllocError, Global};

// Whether a lasso is found, and whether the client is shown to be served.
fn answers(alloc: Global, is_fair: bool) -> Result<(bool, bool), AllocError> {
    let netlist = arbiter(alloc, is_fair)?;
    let waits = Literal::new(2, true);
    let found = counterexample(alloc, &netlist, waits)?;
    let served = is_served(alloc, &netlist, waits)?;
    Ok((found.is_some(), served))
}

#[test]
fn a_fair_arbiter_serves_its_client(rt: HostRuntime) -> Result<(), AllocError> {
    assert!(rt; answers(rt.alloc(), true)? == (false, true));
    assert!(rt; answers(rt.alloc(), false)? == (true, false));
    Ok(())
}

// Whether a circuit is made that counts this literal, and one that notes it.
fn makes(alloc: Global, l: Literal) -> Result<(bool, bool), AllocError> {
    let netlist = arbiter(alloc, true)?;
    let counts = counting(alloc, &netlist, &[], &[l], 1)?;
    let saves = to_safety(alloc, &netlist, &[], &[l])?;
    Ok((counts.is_some(), saves.is_some()))
}

#[test]
fn a_literal_of_no_variable_is_not_followed(rt: HostRuntime) -> Result<(), AllocError> {
    assert!(rt; makes(rt.alloc(), Literal::new(3, false))? == (true, true));
    assert!(rt; makes(rt.alloc(), Literal::new(0, true))? == (true, true));
    assert!(rt; makes(rt.alloc(), Literal::new(4, true))? == (false, false));
    Ok(())
}

// The trace of so many moments and one more that saves what the latches hold at one of them, the turn and the client first.
fn saving(
    alloc: Global,
    moments: usize,
    start: usize,
    latches: usize,
) -> Result<Trace, AllocError> {
    let mut held = Vec::new(alloc);
    for place in 0..latches {
        held.push(place == 1)?;
    }
    let mut inputs = Vec::new(alloc);
    for place in 0..=moments {
        let row = Vec::from_array(alloc, [place == start])?;
        inputs.reserve(1)?;
        inputs.push_reserved(row);
    }
    Ok(Trace {
        latches: held,
        inputs,
    })
}

// Where the loop starts of the lasso that a trace is, if it is one.
fn start_of(
    alloc: Global,
    netlist: &Netlist,
    justice: Literal,
    trace: &Trace,
) -> Result<Option<usize>, AllocError> {
    match lasso_of(alloc, netlist, &[], &[justice], trace)? {
        Some(lasso) => Ok(Some(lasso.start)),
        None => Ok(None),
    }
}

// Whether such a trace fails, of the circuit that saves; and where the loop starts of the lasso that it is.
fn goes_round(
    alloc: Global,
    is_fair: bool,
    justice: Literal,
    moments: usize,
    start: usize,
) -> Result<(bool, Option<usize>), AllocError> {
    let netlist = arbiter(alloc, is_fair)?;
    let (saves, looped) = to_safety(alloc, &netlist, &[], &[justice])?.ok_or(AllocError)?;
    let trace = saving(alloc, moments, start, saves.circuit.latches.len())?;
    let fails = replay(alloc, &saves, looped, &trace)?;
    Ok((fails, start_of(alloc, &netlist, justice, &trace)?))
}

// Whether the arbiter is fair, the variable that is to recur, how many moments there are, where the loop starts, and
// whether it is one on which the variable is true. A fair arbiter changes the turn, and the client waits at the first two
// moments.
const LOOPS: &[(bool, u8, usize, usize, bool)] = &[
    (false, 2, 1, 0, true),
    (false, 2, 3, 0, true),
    (false, 2, 3, 1, true),
    (false, 2, 3, 2, true),
    (false, 1, 3, 1, false),
    (true, 1, 4, 2, true),
    (true, 1, 5, 3, true),
    (true, 1, 6, 2, true),
    // The latches do not hold the same again.
    (true, 1, 3, 2, false),
    (true, 1, 4, 0, false),
    (true, 2, 2, 0, false),
    // The client does not wait any more.
    (true, 2, 4, 2, false),
];

#[test]
fn lassos_are_traces(rt: HostRuntime) -> Result<(), AllocError> {
    for &(is_fair, variable, moments, start, is) in LOOPS {
        let justice = Literal::new(u32::from(variable), true);
        let wanted = (is, if is { Some(start) } else { None });
        assert!(rt; goes_round(rt.alloc(), is_fair, justice, moments, start)? == wanted);
    }
    Ok(())
}
