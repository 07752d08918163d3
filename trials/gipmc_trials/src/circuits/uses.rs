//! Each use of a circuit once, by a solver of some lines.

use crate::circuits::limited::Limited;
use gipmc_aiger::AigerError;
use gipmc_builder::{Builder, digits};
use gipmc_uses::adders::majority_adder;
use gipmc_uses::arbiter::safe_arbiter;
use gipmc_uses::confirm::confirms;
use gipmc_uses::counter::{counter, is_never_three};
use gipmc_uses::larger::larger;
use gipmc_uses::lights::never_both_green;
use gipmc_uses::throughout::is_false_throughout;
use gipsat_cnf::SatSolver;
use gipsat_plain::Plain;
use std::alloc::{AllocError, Global};

// How many latches the counter has, and how many inputs.
fn size_of_counter(alloc: Global) -> Result<(usize, usize), AllocError> {
    let (netlist, _) = counter(alloc)?;
    let circuit = &netlist.circuit;
    Ok((circuit.latches.len(), circuit.inputs.len()))
}

#[test]
fn the_counter_is_never_three(rt: HostRuntime) -> Result<(), AllocError> {
    assert!(rt; is_never_three::<Plain>(rt.alloc())?);
    assert!(rt; size_of_counter(rt.alloc())? == (2, 1));
    Ok(())
}

// Whether this clause shows that the counter is never 3: that it is not, or an empty one.
fn is_shown_by(alloc: Global, is_empty: bool) -> Result<bool, AllocError> {
    let (netlist, at_three) = counter(alloc)?;
    let mut clause = Vec::new(alloc);
    if !is_empty {
        clause.push(at_three.negated())?;
    }
    let mut invariant = Vec::new(alloc);
    invariant.push(clause)?;
    is_false_throughout::<Plain>(alloc, &netlist, at_three, &invariant, 1000)
}

#[test]
fn what_clauses_show_is_false_throughout(rt: HostRuntime) -> Result<(), AllocError> {
    assert!(rt; is_shown_by(rt.alloc(), false)?);
    assert!(rt; !is_shown_by(rt.alloc(), true)?);
    Ok(())
}

// How many digits the larger one of two constants has.
fn digits_of_larger(alloc: Global) -> Result<usize, AllocError> {
    let mut build = Builder::new(alloc);
    let found = larger(&mut build, &digits(alloc, 6)?, &digits(alloc, 1)?)?;
    Ok(found.len())
}

#[test]
fn the_larger_number_has_the_digits_of_the_longer(rt: HostRuntime) -> Result<(), AllocError> {
    assert!(rt; digits_of_larger(rt.alloc())? == 3);
    Ok(())
}

#[test]
fn lights_and_an_arbiter_are_safe(rt: HostRuntime) -> Result<(), AllocError> {
    assert!(rt; never_both_green::<Plain>(rt.alloc())?);
    assert!(rt; safe_arbiter::<Plain>(rt.alloc())?.is_some());
    Ok(())
}

// How many digits the sum has of the adder of this width that is found, if one is.
fn digits_of_sum<S: SatSolver + Drop>(
    alloc: Global,
    width: usize,
    limit: usize,
) -> Result<Option<usize>, AllocError> {
    match majority_adder::<S>(alloc, width, limit)? {
        Some(adder) => Ok(Some(adder.sum.len())),
        None => Ok(None),
    }
}

#[test]
fn an_adder_of_majorities_adds(rt: HostRuntime) -> Result<(), AllocError> {
    for &(width, digits) in &[(0, 1), (1, 2), (4, 5)] {
        assert!(rt; digits_of_sum::<Plain>(rt.alloc(), width, 10_000)? == Some(digits));
    }
    Ok(())
}

#[test]
fn an_adder_is_found_within_the_limit_alone(rt: HostRuntime) -> Result<(), AllocError> {
    assert!(rt; digits_of_sum::<Limited>(rt.alloc(), 2, 10_000)? == Some(3));
    assert!(rt; digits_of_sum::<Limited>(rt.alloc(), 2, 0)?.is_none());
    Ok(())
}

// Latch 4 holds next what input 2 is, and it is bad.
const CIRCUIT: &[u8] = b"aag 2 1 1 0 0 1\n2\n4 2\n4\n";

#[test]
fn counterexamples_are_confirmed(rt: HostRuntime) -> Result<(), AigerError> {
    assert!(rt; confirms(rt.alloc(), CIRCUIT, b"1\nb0\n0\n1\n0\n.\n")?);
    // The input stays 0; the latch begins at 0; there is no such bad literal.
    for witness in [
        b"1\nb0\n0\n0\n0\n.\n".as_slice(),
        b"1\nb0\n1\n0\n.\n",
        b"1\nb1\n0\n1\n0\n.\n",
    ] {
        assert!(rt; !confirms(rt.alloc(), CIRCUIT, witness)?);
    }
    // No witness, and no circuit.
    assert!(rt; confirms(rt.alloc(), CIRCUIT, b"0\nb0\n.\n").is_err());
    assert!(rt; confirms(rt.alloc(), b"aag\n", b"1\nb0\n0\n1\n0\n.\n").is_err());
    Ok(())
}
