//! Circuits that are built: the widths of numbers, and what is no netlist.

use gipmc_builder::{Builder, constant, digits};
use gipmc_circuits::Netlist;
use gipsat_cnf::Literal;
use std::alloc::{AllocError, Global};

// The widths of the digits of a number, of its sum and its choice with 1, of the number and 1 more, of 8 times it and of
// its half, and how many gates all that has.
fn widths(alloc: Global, n: u64) -> Result<[usize; 7], AllocError> {
    let mut build = Builder::new(alloc);
    let left = digits(alloc, n)?;
    let right = digits(alloc, 1)?;
    let sum = build.add(&left, &right)?;
    let chosen = build.choose(constant(true), &left, &right)?;
    let more = build.increment(&left)?;
    let eightfold = build.shift_left(&left, 3)?;
    let half = build.shift_right(&left, 1)?;
    Ok([
        left.len(),
        sum.len(),
        chosen.len(),
        more.len(),
        eightfold.len(),
        half.len(),
        build.circuit.gates.len(),
    ])
}

// Numbers, and these widths. Sums of constants need no gate.
const WIDTHS: &[(u64, [usize; 7])] = &[
    (0, [0, 2, 1, 2, 3, 0, 0]),
    (1, [1, 2, 1, 2, 4, 0, 0]),
    (6, [3, 4, 3, 4, 6, 2, 0]),
    (u64::MAX, [64, 65, 64, 65, 67, 63, 0]),
];

#[test]
fn numbers_have_their_widths(rt: HostRuntime) -> Result<(), AllocError> {
    for &(n, wanted) in WIDTHS {
        assert!(rt; widths(rt.alloc(), n)? == wanted);
    }
    Ok(())
}

// Whether two literals have one gate, whichever of them comes first.
fn is_shared(alloc: Global) -> Result<bool, AllocError> {
    let mut build = Builder::new(alloc);
    let left = build.input()?;
    let right = build.input()?;
    let both = build.and(left, right)?;
    let again = build.and(left, right)?;
    let turned = build.and(right, left)?;
    let neither = build.or(left.negated(), right.negated())?;
    Ok(
        build.circuit.gates.len() == 1
            && both == again
            && both == turned
            && both == neither.negated(),
    )
}

// Whether no gate is made of a constant, or of literals of one variable.
fn is_folded(alloc: Global) -> Result<bool, AllocError> {
    let mut build = Builder::new(alloc);
    let input = build.input()?;
    let kept = build.and(constant(true), input)?;
    let same = build.and(input, input)?;
    let none = build.and(input, constant(false))?;
    let never = build.and(input.negated(), input)?;
    let chosen = build.mux(constant(false), none, kept)?;
    Ok(
        build.circuit.gates.is_empty()
            && same == input
            && chosen == input
            && none == constant(false)
            && never == constant(false),
    )
}

// How many gates a sum, a comparison and the same ones again have.
fn gates_of_numbers(alloc: Global) -> Result<(usize, usize), AllocError> {
    let mut build = Builder::new(alloc);
    let left = build.inputs(8)?;
    let right = build.inputs(8)?;
    for _ in 0..2 {
        build.sub(&left, &right)?;
        build.less(&left, &right)?;
    }
    let once = build.circuit.gates.len();
    build.less(&left, &right)?;
    Ok((once, build.circuit.gates.len()))
}

#[test]
fn gates_are_shared_and_folded(rt: HostRuntime) -> Result<(), AllocError> {
    assert!(rt; is_shared(rt.alloc())?);
    assert!(rt; is_folded(rt.alloc())?);
    let (once, again) = gates_of_numbers(rt.alloc())?;
    assert!(rt; once == again && once <= 9 * 8);
    Ok(())
}

// The variables of a circuit with two inputs, a register of three bits that begins at 2 and adds its first input, a bad
// literal and a constraint; one bit is made no latch, and one literal is of no variable, where that is asked for.
fn parts(alloc: Global, open: bool, undefined: bool) -> Result<Option<Netlist>, AllocError> {
    let mut build = Builder::new(alloc);
    let inputs = build.inputs(2)?;
    let bits = build.bits(3)?;
    let next = build.add(&bits, &inputs)?;
    build.register(&bits, 2, &next)?;
    build.bad(bits[0])?;
    build.constraint(inputs[0])?;
    if open {
        let bit = build.bit()?;
        build.bad(bit)?;
    }
    if undefined {
        build.and(Literal::new(1000, true), inputs[1])?;
    }
    build.finish()
}

// Whether a netlist of these parts goes on with a gate, whose variable is the next one, and a bad literal.
fn goes_on(begun: Netlist) -> Result<bool, AllocError> {
    let variables = begun.variables;
    let mut build = Builder::over(begun);
    let output = build.or(Literal::new(2, true), Literal::new(3, false))?;
    build.bad(output)?;
    Ok(output.variable() as usize == variables && build.finish()?.is_some())
}

// Whether there is a netlist of these parts, and one that goes on with more.
fn is_built(alloc: Global, open: bool, undefined: bool) -> Result<(bool, bool), AllocError> {
    match parts(alloc, open, undefined)? {
        Some(netlist) => Ok((true, goes_on(netlist)?)),
        None => Ok((false, false)),
    }
}

#[test]
fn a_netlist_has_all_parts_and_goes_on(rt: HostRuntime) -> Result<(), AllocError> {
    for &(open, undefined, wanted) in &[
        (false, false, (true, true)),
        (true, false, (false, false)),
        (false, true, (false, false)),
    ] {
        assert!(rt; is_built(rt.alloc(), open, undefined)? == wanted);
    }
    Ok(())
}
