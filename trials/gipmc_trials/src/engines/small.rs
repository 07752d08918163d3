//! Circuits of a few latches.

use gipmc_circuits::{And, Circuit, Latch, Netlist};
use gipsat_cnf::Literal;
use std::alloc::{AllocError, Global};

/// The literal that AIGER writes as this number.
pub fn literal(code: u8) -> Literal {
    Literal::new(u32::from(code / 2), code % 2 == 0)
}

/// A circuit: its input, if it has one; each latch, with what it holds next and first; and each gate, with its operands.
/// Literals are written as AIGER writes them.
pub type Form = (
    Option<u8>,
    &'static [(u8, u8, bool)],
    &'static [(u8, u8, u8)],
);

/// A token in a ring of latches 2 to 5, which moves to the next latch at each moment. It is in latch 2 at first. Gate 6
/// is true where both latch 2 and latch 4 have one.
pub const RING: Form = (
    Some(2),
    &[(4, 10, true), (6, 4, false), (8, 6, false), (10, 8, false)],
    &[(12, 4, 8)],
);

/// A counter of latch 2, the low digit, and latch 3. It begins at 0, and goes on where input 1 is true. Gate 6 is true
/// where it is at 3 and goes on.
pub const COUNTER: Form = (
    Some(2),
    &[(4, 16, false), (6, 18, false)],
    &[
        (8, 2, 4),
        (10, 3, 5),
        (12, 8, 6),
        (14, 9, 7),
        (16, 9, 11),
        (18, 13, 15),
    ],
);

/// Latches 2 and 3 are the bits of a number that goes through 0, 1, 2, and 0 again; 3 would be followed by 0. Gate 6 is
/// true where both are one.
pub const THREE: Form = (
    None,
    &[(4, 8, false), (6, 10, false)],
    &[(8, 5, 7), (10, 4, 7), (12, 4, 6)],
);

/// Latch 2 is one after a moment at which input 1 was, and latch 3 once latch 2 was one at the moment before. Both
/// begin at 0. Gate 4 is true where both latches are: after two transitions at the earliest.
pub const SHIFTER: Form = (Some(2), &[(4, 2, false), (6, 4, false)], &[(8, 4, 6)]);

/// A register of three latches, all 0 at first, into which 1 is shifted.
pub const ONES: Form = (None, &[(2, 1, false), (4, 2, false), (6, 4, false)], &[]);

/// The same of six latches.
pub const SIX_ONES: Form = (
    None,
    &[
        (2, 1, false),
        (4, 2, false),
        (6, 4, false),
        (8, 6, false),
        (10, 8, false),
        (12, 10, false),
    ],
    &[],
);

/// A register of latches 2 to 4, all 0 at first, into which 0 is shifted beside an input that matters to none. Gate 6 is
/// true where all three are one.
pub const CLOSED: Form = (
    Some(2),
    &[(4, 0, false), (6, 4, false), (8, 6, false)],
    &[(10, 4, 6), (12, 10, 8)],
);

// The circuit of a form.
fn circuit(alloc: Global, (input, latches, gates): Form) -> Result<Circuit, AllocError> {
    let mut circuit = Circuit::new(alloc);
    if let Some(input) = input {
        circuit.inputs.push(u32::from(input / 2))?;
    }
    for &(variable, next, reset) in latches {
        circuit.latches.push(Latch {
            variable: u32::from(variable / 2),
            next: literal(next),
            reset: Some(reset),
        })?;
    }
    for &(output, left, right) in gates {
        circuit.gates.push(And {
            output: u32::from(output / 2),
            left: literal(left),
            right: literal(right),
        })?;
    }
    Ok(circuit)
}

/// The netlist of a form.
///
/// # Errors
/// `AllocError` where memory is refused, or the circuit is not well-formed.
pub fn made(alloc: Global, form: Form) -> Result<Netlist, AllocError> {
    Netlist::new(alloc, circuit(alloc, form)?)?.ok_or(AllocError)
}

/// A register of so many latches, all 0 at first, into which input 1 is shifted.
///
/// # Errors
/// `AllocError` where memory is refused.
pub fn register(alloc: Global, latches: u8) -> Result<Netlist, AllocError> {
    let mut circuit = Circuit::new(alloc);
    circuit.inputs.push(1)?;
    for place in 0..latches {
        let before = u32::from(place) + 1;
        circuit.latches.push(Latch {
            variable: before + 1,
            next: Literal::new(before, true),
            reset: Some(false),
        })?;
    }
    Netlist::new(alloc, circuit)?.ok_or(AllocError)
}
