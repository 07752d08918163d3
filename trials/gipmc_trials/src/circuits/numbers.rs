//! What is in a part, and under which numbers.

use gipmc_circuits::{And, Circuit, Latch, Netlist};
use gipmc_reduce::Cone;
use gipsat_cnf::Literal;
use std::alloc::{AllocError, Global};

// Latch 40 000 holds next what input 9 is. Latch 7 goes round by gate 8, which input 3 feeds, and nothing else.
fn apart(alloc: Global) -> Result<Circuit, AllocError> {
    let mut circuit = Circuit::new(alloc);
    circuit.inputs.extend_from_slice(&[3, 9])?;
    for &(variable, next) in &[(7, 8), (40_000, 9)] {
        circuit.latches.push(Latch {
            variable,
            next: Literal::new(next, false),
            reset: Some(true),
        })?;
    }
    circuit.gates.push(And {
        output: 8,
        left: Literal::new(7, true),
        right: Literal::new(3, false),
    })?;
    Ok(circuit)
}

// Its part for a literal of this variable, if it has it, where one of that variable is a constraint.
fn part_for(
    alloc: Global,
    variable: u32,
    constraint: Option<u32>,
) -> Result<Option<Cone>, AllocError> {
    let mut circuit = apart(alloc)?;
    if let Some(constraint) = constraint {
        circuit
            .constraints
            .push(Literal::new(constraint % 64, true))?;
    }
    let netlist = Netlist::new(alloc, circuit)?.ok_or(AllocError)?;
    Cone::new(alloc, &netlist, &[Literal::new(variable % 65_536, true)])
}

// Whether a part has so many inputs, latches and gates, and these names.
fn has(part: &Cone, inputs: usize, latches: usize, gates: usize, names: &[u32]) -> bool {
    let circuit = &part.netlist.circuit;
    circuit.inputs.len() == inputs
        && circuit.latches.len() == latches
        && circuit.gates.len() == gates
        && part.names.names.as_slice() == names
}

#[test]
fn a_part_has_what_its_literals_depend_on(rt: HostRuntime) -> Result<(), AllocError> {
    let part = part_for(rt.alloc(), 40_000, None)?.ok_or(AllocError)?;
    assert!(rt; has(&part, 1, 1, 0, &[0, 9, 40_000]));
    Ok(())
}

#[test]
fn a_part_has_what_the_constraints_depend_on(rt: HostRuntime) -> Result<(), AllocError> {
    let part = part_for(rt.alloc(), 40_000, Some(8))?.ok_or(AllocError)?;
    assert!(rt; has(&part, 2, 2, 1, &[0, 3, 9, 7, 40_000, 8]));
    Ok(())
}

#[test]
fn a_literal_of_no_variable_has_no_part(rt: HostRuntime) -> Result<(), AllocError> {
    assert!(rt; part_for(rt.alloc(), 5, None)?.is_none());
    assert!(rt; part_for(rt.alloc(), 40_001, None)?.is_none());
    Ok(())
}
