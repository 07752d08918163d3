//! Searches by IC3 in slices.

use crate::engines::found::{Answer, checked};
use crate::engines::small::{COUNTER, Form, RING, made};
use gipmc_circuits::Netlist;
use gipmc_ic3::{Found, Search};
use gipmc_uses::pages::slices::found_in_slices;
use gipsat_cnf::Literal;
use gipsat_plain::Plain;
use std::alloc::{AllocError, Global};

// Gate 6, which is bad.
fn bad() -> Literal {
    Literal::new(6, true)
}

// What slices of so many calls find out.
fn answer_in_slices(alloc: Global, form: Form, calls: u64) -> Result<Answer, AllocError> {
    let netlist = made(alloc, form)?;
    let found = found_in_slices(alloc, &netlist, bad(), 1000, calls)?;
    checked(alloc, &netlist, bad(), &found)
}

// A circuit, how many calls a slice has, and what slices find out.
const SLICES: &[(Form, u64, Answer)] = &[
    (RING, 0, Answer::Unknown),
    (RING, 1, Answer::Safe),
    (RING, 3, Answer::Safe),
    (COUNTER, 1, Answer::Fails(4)),
    (COUNTER, 3, Answer::Fails(4)),
];

#[test]
fn goes_on_from_slice_to_slice(rt: HostRuntime) -> Result<(), AllocError> {
    for &(form, calls, answer) in SLICES {
        assert!(rt; answer_in_slices(rt.alloc(), form, calls)? == answer);
    }
    Ok(())
}

// What a search tells of itself.
#[derive(Clone, Copy)]
struct Told {
    calls: u64,
    frame: usize,
    lemmas: u64,
    // The literals of all lemmas.
    literals: u64,
}

fn told_by(search: &Search<'_, Plain>) -> Told {
    let statistics = search.statistics();
    Told {
        calls: statistics.calls,
        frame: search.frame(),
        lemmas: statistics.lemmas,
        literals: statistics.literals,
    }
}

// What the second of two slices finds, and what the search tells then.
fn run_twice(
    alloc: Global,
    netlist: &Netlist,
    first: u64,
    second: u64,
) -> Result<(Found, Told), AllocError> {
    let mut search = Search::<Plain>::new(alloc, netlist, bad())?;
    search.run(first)?;
    let found = search.run(second)?;
    Ok((found, told_by(&search)))
}

fn two_slices(
    alloc: Global,
    form: Form,
    first: u64,
    second: u64,
) -> Result<(Answer, Told), AllocError> {
    let netlist = made(alloc, form)?;
    let (found, told) = run_twice(alloc, &netlist, first, second)?;
    Ok((checked(alloc, &netlist, bad(), &found)?, told))
}

// A circuit, how many calls the first slice has, and what the second finds, which has none.
const FOUND_AGAIN: &[(Form, u64, Answer)] = &[
    (RING, 1000, Answer::Safe),
    (RING, 2, Answer::Unknown),
    (COUNTER, 1000, Answer::Fails(4)),
];

#[test]
fn finds_again_what_it_found(rt: HostRuntime) -> Result<(), AllocError> {
    for &(form, calls, wanted) in FOUND_AGAIN {
        let (answer, _) = two_slices(rt.alloc(), form, calls, 0)?;
        assert!(rt; answer == wanted);
    }
    Ok(())
}

#[test]
fn asks_no_more_than_it_may(rt: HostRuntime) -> Result<(), AllocError> {
    for &(calls, wanted) in &[(0, 0), (2, 4)] {
        let (_, told) = two_slices(rt.alloc(), RING, calls, calls)?;
        assert!(rt; told.calls == wanted);
    }
    Ok(())
}

#[test]
fn tells_how_far_it_is(rt: HostRuntime) -> Result<(), AllocError> {
    let (_, of_counter) = two_slices(rt.alloc(), COUNTER, 1000, 0)?;
    assert!(rt; of_counter.frame == 3);
    let (_, of_ring) = two_slices(rt.alloc(), RING, 1000, 0)?;
    assert!(rt; of_ring.lemmas > 1);
    // A lemma has one to four literals on average.
    assert!(rt;
        of_ring.lemmas <= of_ring.literals && of_ring.literals <= of_ring.lemmas.saturating_mul(4)
    );
    Ok(())
}
