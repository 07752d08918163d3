//! Workloads of the solver: many small questions about a circuit over several moments, as model checkers ask them.

use crate::common::{Digest, Draws};
use gipsat_solver::{Guess, Literal, Solver};
use std::alloc::{AllocError, Global};

const LATCHES: u32 = 64;

const INPUTS: u32 = 16;

const GATES: u16 = 500;

// Over how many moments the circuit goes.
const MOMENTS: u8 = 20;

// How far the variables of two moments stand apart. The latches of a moment are the last gates of the one before.
const STRIDE: u32 = INPUTS + GATES as u32;

// How many variables there are.
const VARIABLES: u32 = MOMENTS as u32 * STRIDE + LATCHES;

// One gate in so many is an exclusive or.
const GATES_A_XOR: usize = 8;

/// Makes the workload of this name, if it is one of this file: whether memory sufficed.
pub(crate) fn run(
    alloc: Global,
    workload: &str,
    size: u32,
    rng: &mut Draws,
    checksum: &mut Digest,
) -> Option<bool> {
    let outcome = match workload {
        "calls" => ask(alloc, size, Deciding::All, rng, checksum),
        "calls_within" => ask(alloc, size, Deciding::Cone, rng, checksum),
        _ => return None,
    };
    Some(outcome.is_ok())
}

// Which variables a question decides: all, or those that its assumptions depend on.
#[derive(Clone, Copy)]
enum Deciding {
    All,
    Cone,
}

// What a gate reads: a latch, an input or a gate, by its number in this order, or its negation.
#[derive(Clone, Copy)]
struct Operand {
    node: u16,
    positive: bool,
}

// A gate: the exclusive or of its operands, or both of them.
#[derive(Clone, Copy)]
struct Gate {
    is_xor: bool,
    left: Operand,
    right: Operand,
}

// Asks `size` questions about a drawn circuit, and mixes which of them have the answer yes. A question is whether some
// drawn latches can hold drawn values at a drawn moment.
fn ask(
    alloc: Global,
    size: u32,
    deciding: Deciding,
    rng: &mut Draws,
    checksum: &mut Digest,
) -> Result<(), AllocError> {
    let circuit = drawn_circuit(alloc, rng)?;
    let mut cones = Cones::new(alloc)?;
    let mut solver = Solver::new(alloc);
    ask_solver(
        alloc,
        &mut solver,
        &circuit,
        &mut cones,
        size,
        deciding,
        rng,
        checksum,
    )
}

// The same, of a solver without clauses.
fn ask_solver(
    alloc: Global,
    solver: &mut Solver,
    circuit: &[Gate],
    cones: &mut Cones,
    size: u32,
    deciding: Deciding,
    rng: &mut Draws,
    checksum: &mut Digest,
) -> Result<(), AllocError> {
    for moment in 0..MOMENTS {
        add_moment(solver, circuit, moment)?;
    }
    for _ in 0..size {
        let cube = drawn_cube(alloc, rng)?;
        let has_model = has_model(alloc, solver, circuit, cones, &cube, deciding)?;
        checksum.mix(u64::from(has_model));
    }
    Ok(())
}

// Whether the literals of a cube can be true together.
fn has_model(
    alloc: Global,
    solver: &mut Solver,
    circuit: &[Gate],
    cones: &mut Cones,
    cube: &[Literal],
    deciding: Deciding,
) -> Result<bool, AllocError> {
    let guess = match deciding {
        Deciding::All => solver.guess_under(cube, usize::MAX)?,
        Deciding::Cone => {
            let domain = cones.cone(alloc, circuit, cube)?;
            solver.guess_within(&domain, cube, usize::MAX)?
        }
    };
    Ok(matches!(guess, Guess::Sat))
}

// A drawn circuit.
fn drawn_circuit(alloc: Global, rng: &mut Draws) -> Result<Vec<Gate>, AllocError> {
    let mut gates = Vec::new(alloc);
    for place in 0..GATES {
        let is_xor = rng.below(GATES_A_XOR) == 0;
        let left = drawn_operand(rng, place);
        let right = drawn_operand(rng, place);
        gates.push(Gate {
            is_xor,
            left,
            right,
        })?;
    }
    Ok(gates)
}

// A drawn operand of the gate at this place.
fn drawn_operand(rng: &mut Draws, place: u16) -> Operand {
    let bound = LATCHES as usize + INPUTS as usize + place as usize;
    let node = u16::try_from(rng.below(bound)).unwrap_or(0);
    let positive = rng.draw() % 2 == 0;
    Operand { node, positive }
}

// The literals that some drawn latches hold drawn values at a drawn moment.
fn drawn_cube(alloc: Global, rng: &mut Draws) -> Result<Vec<Literal>, AllocError> {
    let moment = 1 + drawn(rng, MOMENTS);
    let count = 2 + rng.below(9);
    let mut cube = Vec::new(alloc);
    for _ in 0..count {
        let node = u16::from(drawn(rng, LATCHES as u8));
        let positive = rng.draw() % 2 == 0;
        cube.push(literal(Operand { node, positive }, moment))?;
    }
    Ok(cube)
}

// A drawn number below this positive one.
fn drawn(rng: &mut Draws, bound: u8) -> u8 {
    rng.below(bound as usize) as u8
}

// The variable of a latch, an input or a gate at a moment.
fn variable(node: u16, moment: u8) -> u32 {
    u32::from(moment) * STRIDE + u32::from(node)
}

// What a gate reads at a moment.
fn literal(operand: Operand, moment: u8) -> Literal {
    Literal::new(variable(operand.node, moment), operand.positive)
}

// Adds what the gates of a moment compute.
fn add_moment(solver: &mut Solver, circuit: &[Gate], moment: u8) -> Result<(), AllocError> {
    let mut node = (LATCHES + INPUTS) as u16;
    for gate in circuit {
        let output = literal(
            Operand {
                node,
                positive: true,
            },
            moment,
        );
        add_gate(
            solver,
            gate.is_xor,
            output,
            literal(gate.left, moment),
            literal(gate.right, moment),
        )?;
        node = node.wrapping_add(1);
    }
    Ok(())
}

// Adds that the output is the exclusive or of two literals, or that it is both.
fn add_gate(
    solver: &mut Solver,
    is_xor: bool,
    output: Literal,
    left: Literal,
    right: Literal,
) -> Result<(), AllocError> {
    if is_xor {
        solver.add_clause(&[output.negated(), left, right])?;
        solver.add_clause(&[output.negated(), left.negated(), right.negated()])?;
        solver.add_clause(&[output, left.negated(), right])?;
        solver.add_clause(&[output, left, right.negated()])?;
    } else {
        solver.add_clause(&[output.negated(), left])?;
        solver.add_clause(&[output.negated(), right])?;
        solver.add_clause(&[output, left.negated(), right.negated()])?;
    }
    Ok(())
}

// Which variables the questions reached.
#[derive(Drop)]
struct Cones {
    // For each variable, which question reached it last.
    reached: Vec<u32>,
    questions: u32,
}

impl Cones {
    fn new(alloc: Global) -> Result<Self, AllocError> {
        let mut reached = Vec::new(alloc);
        for _ in 0..VARIABLES {
            reached.push(0)?;
        }
        Ok(Cones {
            reached,
            questions: 0,
        })
    }

    // The variables that the cube's depend on.
    fn cone(
        &mut self,
        alloc: Global,
        circuit: &[Gate],
        cube: &[Literal],
    ) -> Result<Vec<u32>, AllocError> {
        self.questions = self.questions.wrapping_add(1);
        let mut cone = Vec::new(alloc);
        for literal in cube {
            self.reach(&mut cone, literal.variable())?;
        }
        for place in 0..VARIABLES as usize {
            let Some(&reached) = cone.get(place) else {
                break;
            };
            if let Some((gate, moment)) = gate_of(circuit, reached) {
                self.reach(&mut cone, variable(gate.left.node, moment))?;
                self.reach(&mut cone, variable(gate.right.node, moment))?;
            }
        }
        Ok(cone)
    }

    // Adds a variable to the cone, unless it is there.
    fn reach(&mut self, cone: &mut Vec<u32>, variable: u32) -> Result<(), AllocError> {
        if let Some(reached) = self.reached.get_mut(variable as usize) {
            if *reached != self.questions {
                *reached = self.questions;
                cone.push(variable)?;
            }
        }
        Ok(())
    }
}

// The gate whose output is the variable, and its moment; None for an input, and for a latch of the first moment.
fn gate_of(circuit: &[Gate], variable: u32) -> Option<(Gate, u8)> {
    let place = variable.checked_sub(LATCHES + INPUTS)?;
    let gate = circuit.get((place % STRIDE) as usize)?;
    let moment = u8::try_from(place / STRIDE).ok()?;
    Some((*gate, moment))
}
