//! Circuits that the binary form has, and circuits that it has not.

use gipmc_aiger::{WriteError, read_circuit, write_aig};
use gipmc_circuits::{And, Circuit, Latch};
use gipsat_cnf::Literal;
use std::alloc::{AllocError, Global};

// So many inputs from 1 on, a latch, and a gate of variable 1, true or not, whose output this is.
fn circuit(
    alloc: Global,
    inputs: u16,
    latch: u16,
    output: u16,
    operand: u16,
) -> Result<Circuit, AllocError> {
    let mut circuit = Circuit::new(alloc);
    for input in 1..=inputs {
        circuit.inputs.push(u32::from(input))?;
    }
    circuit.latches.push(Latch {
        variable: u32::from(latch),
        next: Literal::new(0, true),
        reset: None,
    })?;
    circuit.gates.push(And {
        output: u32::from(output),
        left: Literal::new(u32::from(operand), true),
        right: Literal::new(u32::from(operand), false),
    })?;
    circuit.bads.push(Literal::new(u32::from(output), true))?;
    Ok(circuit)
}

// How it is refused; None where it is written.
fn refusal(
    alloc: Global,
    inputs: u16,
    latch: u16,
    output: u16,
    operand: u16,
) -> Result<Option<WriteError>, AllocError> {
    let circuit = circuit(alloc, inputs, latch, output, operand)?;
    Ok(write_aig(alloc, &circuit).err())
}

#[test]
fn numbers_are_tested(rt: HostRuntime) -> Result<(), AllocError> {
    assert!(rt; refusal(rt.alloc(), 2, 3, 4, 1)?.is_none());
    assert!(rt; refusal(rt.alloc(), 2, 4, 3, 1)? == Some(WriteError::Numbering(4)));
    assert!(rt; refusal(rt.alloc(), 2, 3, 5, 1)? == Some(WriteError::Numbering(5)));
    assert!(rt; refusal(rt.alloc(), 2, 3, 4, 4)? == Some(WriteError::Order(4)));
    assert!(rt; refusal(rt.alloc(), 2, 3, 4, 5)? == Some(WriteError::Order(4)));
    Ok(())
}

// Whether a circuit of so many inputs, with this latch and this output, is written and read again with its gate.
fn is_read_again(alloc: Global, inputs: u16, latch: u16, output: u16) -> Result<bool, AllocError> {
    let circuit = circuit(alloc, inputs, latch, output, 1)?;
    let Ok(text) = write_aig(alloc, &circuit) else {
        return Ok(false);
    };
    let Ok(read) = read_circuit(alloc, &text) else {
        return Ok(false);
    };
    let Some(gate) = read.circuit.gates.first() else {
        return Ok(false);
    };
    Ok(
        gate.output == u32::from(output)
            && gate.left.variable() == 1
            && !gate.left.is_positive()
            && gate.right == Literal::new(1, true),
    )
}

// The operand is 2 * inputs + 1 below the output: in one group of 7 bits, in two, and in three.
#[test]
fn gates_of_many_groups_are_read_again(rt: HostRuntime) -> Result<(), AllocError> {
    assert!(rt; is_read_again(rt.alloc(), 60, 61, 62)?);
    assert!(rt; is_read_again(rt.alloc(), 70, 71, 72)?);
    assert!(rt; is_read_again(rt.alloc(), 9000, 9001, 9002)?);
    Ok(())
}
