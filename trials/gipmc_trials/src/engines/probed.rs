//! Traces of one length after another: whether they end where a literal is true is asked of each length anew.

use crate::engines::small::{COUNTER, Form, THREE, literal, made};
use gipmc_circuits::{Netlist, replay};
use gipmc_unroll::{Probe, Traces};
use gipsat_cnf::{Budget, Literal};
use gipsat_plain::Plain;
use std::alloc::{AllocError, Global};

// Whether a trace of this length ends where the literal is true. None if that is left open, or the trace is none.
fn ends(
    alloc: Global,
    netlist: &Netlist,
    traces: &mut Traces<'_, Plain>,
    bad: Literal,
) -> Result<Option<bool>, AllocError> {
    let budget = Budget {
        clauses: 1000,
        propagations: u64::MAX,
    };
    match traces.probe(alloc, bad, budget)? {
        Probe::Trace(trace) => {
            if replay(alloc, netlist, bad, &trace)? {
                Ok(Some(true))
            } else {
                Ok(None)
            }
        }
        Probe::Never => Ok(Some(false)),
        Probe::Open => Ok(None),
    }
}

// Whether traces of each length end as is wanted of one literal and of another, and of the first one asked again.
fn end_so(
    alloc: Global,
    netlist: &Netlist,
    traces: &mut Traces<'_, Plain>,
    bads: [Literal; 2],
    wanted: &[(bool, bool)],
) -> Result<bool, AllocError> {
    for &(first, second) in wanted {
        let one = ends(alloc, netlist, traces, bads[0])?;
        let other = ends(alloc, netlist, traces, bads[1])?;
        let again = ends(alloc, netlist, traces, bads[0])?;
        if (one, other, again) != (Some(first), Some(second), Some(first)) {
            return Ok(false);
        }
        traces.lengthen(alloc)?;
    }
    Ok(true)
}

fn are_right(
    alloc: Global,
    form: Form,
    bads: [Literal; 2],
    wanted: &[(bool, bool)],
) -> Result<bool, AllocError> {
    let netlist = made(alloc, form)?;
    let mut traces = Traces::<Plain>::new(alloc, &netlist, &bads)?;
    end_so(alloc, &netlist, &mut traces, bads, wanted)
}

// Two literals of a circuit, and whether each is true at the end of some trace of no transition, of one, and so on.
const ENDS: &[(Form, u8, u8, &[(bool, bool)])] = &[
    (
        THREE,
        4,
        6,
        &[
            (false, false),
            (true, false),
            (false, true),
            (false, false),
            (true, false),
            (false, true),
            (false, false),
            (true, false),
            (false, true),
        ],
    ),
    (
        COUNTER,
        6,
        12,
        &[
            (false, false),
            (false, false),
            (true, false),
            (true, true),
            (true, true),
        ],
    ),
];

#[test]
fn traces_of_each_length_end_as_they_may(rt: HostRuntime) -> Result<(), AllocError> {
    for &(form, first, second, wanted) in ENDS {
        let bads = [literal(first), literal(second)];
        assert!(rt; are_right(rt.alloc(), form, bads, wanted)?);
    }
    Ok(())
}
