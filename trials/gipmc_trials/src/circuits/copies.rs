//! Circuits in which something is there twice, and merges that are wrong.

use gipmc_circuits::{And, Circuit, Latch, Netlist};
use gipmc_reduce::{Bounds, Correspondence, Merges};
use gipmc_uses::pages::merged::{copies, is_safe};
use gipsat_cnf::Literal;
use gipsat_plain::Plain;
use std::alloc::{AllocError, Global};

// Latch 2 holds next what input 1 is, and latch 3 the opposite of it. Latch 4 keeps its 1, and latch 5 may begin with
// either value and keeps it. Latch 6 holds next what latch 2 is where latch 4 is true, and latch 7 what latch 2 is.
fn registers(alloc: Global) -> Result<Circuit, AllocError> {
    let mut circuit = Circuit::new(alloc);
    circuit.inputs.push(1)?;
    for &(variable, next, positive, reset) in &[
        (2, 1, true, Some(false)),
        (3, 1, false, Some(true)),
        (4, 4, true, Some(true)),
        (5, 5, true, None),
        (6, 8, true, Some(false)),
        (7, 2, true, Some(false)),
    ] {
        circuit.latches.push(Latch {
            variable,
            next: Literal::new(next, positive),
            reset,
        })?;
    }
    circuit.gates.push(And {
        output: 8,
        left: Literal::new(2, true),
        right: Literal::new(4, true),
    })?;
    Ok(circuit)
}

fn netlist(alloc: Global, circuit: Circuit) -> Result<Netlist, AllocError> {
    Netlist::new(alloc, circuit)?.ok_or(AllocError)
}

// What a sweep of these circuits merges.
fn swept(alloc: Global, whole: &Netlist, with_gates: bool) -> Result<Correspondence, AllocError> {
    let bounds = Bounds {
        with_gates,
        ..Bounds::default()
    };
    Correspondence::new::<Plain>(alloc, whole, &[], bounds)?.ok_or(AllocError)
}

// Whether what stands for the variable is this literal.
fn stands(sweep: &Correspondence, variable: u32, l: Literal) -> bool {
    sweep.merges.literal(Literal::new(variable % 64, true)) == l
}

#[test]
fn latches_are_merged(rt: HostRuntime) -> Result<(), AllocError> {
    let whole = netlist(rt.alloc(), registers(rt.alloc())?)?;
    let sweep = swept(rt.alloc(), &whole, false)?;
    assert!(rt; stands(&sweep, 2, Literal::new(2, true)));
    assert!(rt; stands(&sweep, 3, Literal::new(2, false)));
    assert!(rt; stands(&sweep, 4, Literal::new(0, false)));
    assert!(rt; stands(&sweep, 5, Literal::new(5, true)));
    assert!(rt; stands(&sweep, 7, Literal::new(6, true)));
    assert!(rt; stands(&sweep, 8, Literal::new(8, true)));
    assert!(rt; sweep.netlist.circuit.latches.len() == 3 && sweep.netlist.circuit.gates.len() == 1);
    Ok(())
}

#[test]
fn gates_are_merged(rt: HostRuntime) -> Result<(), AllocError> {
    let whole = netlist(rt.alloc(), registers(rt.alloc())?)?;
    let sweep = swept(rt.alloc(), &whole, true)?;
    assert!(rt; stands(&sweep, 8, Literal::new(2, true)));
    assert!(rt; sweep.netlist.circuit.latches.len() == 3 && sweep.netlist.circuit.gates.is_empty());
    Ok(())
}

#[test]
fn constraints_are_regarded(rt: HostRuntime) -> Result<(), AllocError> {
    let mut circuit = registers(rt.alloc())?;
    circuit.constraints.push(Literal::new(1, false))?;
    let whole = netlist(rt.alloc(), circuit)?;
    let sweep = swept(rt.alloc(), &whole, true)?;
    assert!(rt; stands(&sweep, 2, Literal::new(0, true)));
    assert!(rt; stands(&sweep, 3, Literal::new(0, false)));
    assert!(rt; sweep.netlist.circuit.latches.len() == 1);
    Ok(())
}

// Whether it is merged that the first literal stands for the variable.
fn passes(alloc: Global, circuit: Circuit, variable: u32, l: Literal) -> Result<bool, AllocError> {
    let whole = netlist(alloc, circuit)?;
    let mut literals = Vec::new(alloc);
    for own in 0..9_u32 {
        literals.push(if own == variable {
            l
        } else {
            Literal::new(own, true)
        })?;
    }
    let made = Correspondence::by::<Plain>(alloc, &whole, &[], Merges { literals }, 1000)?;
    Ok(made.is_some())
}

#[test]
fn wrong_merges_are_found_out(rt: HostRuntime) -> Result<(), AllocError> {
    for &(variable, other, positive, right) in &[
        (3, 2, false, true),
        (3, 2, true, false),
        (4, 0, false, true),
        (4, 0, true, false),
        (5, 0, true, false),
        (5, 4, true, false),
        (6, 2, true, false),
        (7, 6, true, false),
        (2, 0, true, false),
    ] {
        let circuit = registers(rt.alloc())?;
        let passes = passes(rt.alloc(), circuit, variable, Literal::new(other, positive))?;
        assert!(rt; passes == right);
    }
    Ok(())
}

#[test]
fn merges_that_go_round_are_refused(rt: HostRuntime) -> Result<(), AllocError> {
    let mut circuit = registers(rt.alloc())?;
    circuit.gates.push(And {
        output: 9,
        left: Literal::new(8, true),
        right: Literal::new(8, true),
    })?;
    assert!(rt; !passes(rt.alloc(), circuit, 8, Literal::new(9, true))?);
    Ok(())
}

#[test]
fn copies_are_equal(rt: HostRuntime) -> Result<(), AllocError> {
    let whole = copies(rt.alloc())?;
    assert!(rt; is_safe(rt.alloc(), &whole, Literal::new(6, true))?);
    assert!(rt; !is_safe(rt.alloc(), &whole, Literal::new(3, true))?);
    Ok(())
}
