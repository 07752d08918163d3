//! Searches by IC3 about several bad literals at once, in slices.

use crate::engines::found::{Answer, checked};
use crate::engines::small::{CLOSED, COUNTER, Form, RING, literal, made};
use gipmc_circuits::Netlist;
use gipmc_ic3::{Found, Search};
use gipsat_cnf::Literal;
use gipsat_plain::Plain;
use std::alloc::{AllocError, Global};

// How many bad literals fail, and how many are safe.
#[derive(Clone, Copy, PartialEq, Eq)]
struct Count {
    failing: u8,
    safe: u8,
}

// Takes out of the search what was decided, and counts it.
fn close_decided(
    alloc: Global,
    netlist: &Netlist,
    bads: &[Literal],
    search: &mut Search<'_, Plain>,
    found: &Found,
    count: &mut Count,
) -> Result<(), AllocError> {
    for bad in bads {
        if !search.open().contains(bad) {
            continue;
        }
        match checked(alloc, netlist, *bad, found)? {
            Answer::Fails(_) => count.failing = count.failing.saturating_add(1),
            Answer::Safe => count.safe = count.safe.saturating_add(1),
            _ => continue,
        }
        search.close(*bad);
    }
    Ok(())
}

// What slices of so many calls decide of all.
fn count_in_slices(
    alloc: Global,
    netlist: &Netlist,
    bads: &[Literal],
    search: &mut Search<'_, Plain>,
    calls: u64,
) -> Result<Count, AllocError> {
    let mut count = Count {
        failing: 0,
        safe: 0,
    };
    for _ in 0..1000 {
        if search.open().is_empty() {
            break;
        }
        let found = search.run(calls)?;
        close_decided(alloc, netlist, bads, search, &found, &mut count)?;
    }
    Ok(count)
}

// The same by lemmas over latches alone, or over gates too.
fn count_about(
    alloc: Global,
    netlist: &Netlist,
    bads: &[Literal],
    names_gates: bool,
    calls: u64,
) -> Result<Count, AllocError> {
    let mut search = if names_gates {
        Search::<Plain>::with_gates(alloc, netlist, bads)?
    } else {
        Search::<Plain>::for_all(alloc, netlist, bads)?
    };
    count_in_slices(alloc, netlist, bads, &mut search, calls)
}

fn count_of(
    alloc: Global,
    form: Form,
    codes: &[u8],
    names_gates: bool,
    calls: u64,
) -> Result<Count, AllocError> {
    let netlist = made(alloc, form)?;
    let mut bads = Vec::new(alloc);
    for code in codes {
        bads.push(literal(*code))?;
    }
    count_about(alloc, &netlist, &bads, names_gates, calls)
}

// A circuit, bad literals, and how many of them fail and are safe.
const COUNTS: &[(Form, &[u8], (u8, u8))] = &[
    (RING, &[12, 6, 0, 2, 1], (3, 2)),
    (COUNTER, &[12, 0, 6], (2, 1)),
    (CLOSED, &[12, 8, 4], (0, 3)),
];

// Whether lemmas may name gates, and how many calls a slice has.
const SEARCHES: &[(bool, u64)] = &[(false, 1), (false, 1000), (true, 1), (true, 1000)];

#[test]
fn decides_several_at_once(rt: HostRuntime) -> Result<(), AllocError> {
    for &(form, codes, (failing, safe)) in COUNTS {
        for &(names_gates, calls) in SEARCHES {
            let count = count_of(rt.alloc(), form, codes, names_gates, calls)?;
            assert!(rt; count == Count { failing, safe });
        }
    }
    Ok(())
}
