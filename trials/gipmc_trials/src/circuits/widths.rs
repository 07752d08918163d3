//! Traces with more or fewer values than the circuit has latches or inputs.

use gipmc_circuits::{Trace, TraceDoubt, replay, trace_doubt};
use gipmc_uses::pages::traces::two_latches;
use gipsat_cnf::Literal;
use std::alloc::{AllocError, Global};

// The trace of one moment that has these values.
fn trace(alloc: Global, latches: &[bool], inputs: &[bool]) -> Result<Trace, AllocError> {
    let mut rows = Vec::with_capacity(alloc, 1)?;
    rows.push_reserved(inputs.to_vec(alloc)?);
    Ok(Trace {
        latches: latches.to_vec(alloc)?,
        inputs: rows,
    })
}

// Whether the trace fails, at which variable 0 is false; and why not.
fn judged(
    alloc: Global,
    latches: &[bool],
    inputs: &[bool],
) -> Result<(bool, Option<TraceDoubt>), AllocError> {
    let netlist = two_latches(alloc)?;
    let trace = trace(alloc, latches, inputs)?;
    let bad = Literal::new(0, false);
    let fails = replay(alloc, &netlist, bad, &trace)?;
    Ok((fails, trace_doubt(alloc, &netlist, bad, &trace)?))
}

// Values of latches and inputs.
const OTHERS: &[(&[bool], &[bool])] = &[
    (&[false, false, false], &[true]),
    (&[false], &[true]),
    (&[false, false], &[true, false]),
    (&[false, false], &[]),
];

#[test]
fn a_trace_has_as_many_values_as_the_circuit(rt: HostRuntime) -> Result<(), AllocError> {
    assert!(rt; judged(rt.alloc(), &[false, false], &[true])? == (true, None));
    for &(latches, inputs) in OTHERS {
        let wanted = (false, Some(TraceDoubt::Width));
        assert!(rt; judged(rt.alloc(), latches, inputs)? == wanted);
    }
    Ok(())
}
