//! The steps of a formula that keeps satisfiability: what each one says.

use crate::numbers::{add_all, are_at, literal, literals};
use gipsat_kernel::RatKernel;
use std::alloc::{AllocError, Global};

#[derive(Clone, Copy)]
enum Step {
    Begin(usize),
    Tautology(i32),
    // The pivot, and the clause that has it.
    Resolve(i32, usize),
    Conclude(&'static [i32]),
    // A clause, and its resolvents.
    Rat(&'static [i32], &'static [usize]),
    Delete(usize),
    Collect,
    IsRefuted(usize),
}

// What a step says: that it was taken, or not, or the id of a clause.
#[derive(Clone, Copy, PartialEq, Eq)]
enum Said {
    Yes,
    No,
    Id(usize),
}

fn answer(taken: bool) -> Said {
    if taken { Said::Yes } else { Said::No }
}

fn id(id: Option<usize>) -> Said {
    match id {
        Some(id) => Said::Id(id),
        None => Said::No,
    }
}

fn take(alloc: Global, kernel: &mut RatKernel, step: Step) -> Result<Said, AllocError> {
    match step {
        Step::Begin(id) => Ok(answer(kernel.begin(id)?)),
        Step::Tautology(l) => {
            kernel.begin_tautology(literal(l))?;
            Ok(Said::Yes)
        }
        Step::Resolve(pivot, id) => Ok(answer(kernel.resolve(literal(pivot), id)?)),
        Step::Conclude(clause) => conclude(alloc, kernel, clause),
        Step::Rat(clause, resolvents) => add_rat(alloc, kernel, clause, resolvents),
        Step::Delete(id) => Ok(answer(kernel.delete(id))),
        Step::Collect => {
            kernel.collect(alloc)?;
            Ok(Said::Yes)
        }
        Step::IsRefuted(id) => Ok(answer(kernel.is_refuted(id))),
    }
}

fn conclude(alloc: Global, kernel: &mut RatKernel, clause: &[i32]) -> Result<Said, AllocError> {
    let clause = literals(alloc, clause)?;
    Ok(id(kernel.conclude(&clause)?))
}

fn add_rat(
    alloc: Global,
    kernel: &mut RatKernel,
    clause: &[i32],
    resolvents: &[usize],
) -> Result<Said, AllocError> {
    let clause = literals(alloc, clause)?;
    Ok(id(kernel.add_rat(&clause, resolvents)?))
}

// A formula, and steps with what they say.
struct Row {
    formula: &'static [i32],
    steps: &'static [(Step, Said)],
}

// Whether each step of a row says what is wanted.
fn takes_all(alloc: Global, kernel: &mut RatKernel, row: &Row) -> Result<bool, AllocError> {
    add_all(alloc, kernel, row.formula)?;
    for (step, wanted) in row.steps {
        if take(alloc, kernel, *step)? != *wanted {
            return Ok(false);
        }
    }
    Ok(true)
}

const ROWS: &[Row] = &[
    // What is derived is added, also with more literals, and nothing else is.
    Row {
        formula: &[1, 2, 0, -1, 2, 0],
        steps: &[
            (Step::Begin(0), Said::Yes),
            (Step::Resolve(-1, 1), Said::Yes),
            (Step::Conclude(&[2]), Said::Id(2)),
            (Step::Conclude(&[2]), Said::No),
            (Step::Begin(2), Said::Yes),
            (Step::Conclude(&[3, 2, 1]), Said::Id(3)),
            (Step::Begin(0), Said::Yes),
            (Step::Conclude(&[1]), Said::No),
            (Step::Conclude(&[1, 2]), Said::No),
            (Step::Tautology(1), Said::Yes),
            (Step::Conclude(&[-1, 2, 1]), Said::Id(4)),
            (Step::Tautology(1), Said::Yes),
            (Step::Conclude(&[1]), Said::No),
            (Step::Begin(5), Said::No),
            (Step::Resolve(-1, 1), Said::No),
            (Step::Begin(0), Said::Yes),
            (Step::Resolve(1, 1), Said::No),
            (Step::Resolve(-1, 5), Said::No),
        ],
    },
    // No clause has the pivot's negation.
    Row {
        formula: &[1, 2, 0],
        steps: &[
            (Step::Rat(&[1], &[]), Said::Id(1)),
            (Step::Rat(&[3, 4], &[]), Said::Id(2)),
            (Step::Rat(&[], &[]), Said::No),
        ],
    },
    // One clause has it: its resolvent has to be there, and to be one.
    Row {
        formula: &[-1, 2, 0, 2, 3, 0],
        steps: &[
            (Step::Rat(&[1, 3], &[]), Said::No),
            (Step::Rat(&[1, 4], &[1]), Said::No),
            (Step::Rat(&[1, 2], &[0]), Said::No),
            (Step::Rat(&[1, 3], &[7]), Said::No),
            (Step::Rat(&[1, 3], &[1]), Said::Id(2)),
        ],
    },
    // Two clauses have it: their resolvents are given in order.
    Row {
        formula: &[-1, 2, 0, -1, 3, 0, 2, 4, 0, 3, 4, 0],
        steps: &[
            (Step::Rat(&[1, 4], &[2]), Said::No),
            (Step::Rat(&[1, 4], &[3, 2]), Said::No),
            (Step::Rat(&[1, 4], &[2, 3]), Said::Id(4)),
        ],
    },
    // A deleted clause is no resolvent, and needs none.
    Row {
        formula: &[-1, 2, 0, 2, 3, 0],
        steps: &[
            (Step::Delete(1), Said::Yes),
            (Step::Delete(1), Said::No),
            (Step::Delete(2), Said::No),
            (Step::Begin(1), Said::No),
            (Step::Rat(&[1, 3], &[1]), Said::No),
            (Step::Delete(0), Said::Yes),
            (Step::Rat(&[1], &[]), Said::Id(2)),
        ],
    },
    // The clauses that stay move up. The empty clause tells that nothing satisfies the formula, until it is deleted.
    Row {
        formula: &[1, 2, 0, 3, 0, -3, 0],
        steps: &[
            (Step::Delete(0), Said::Yes),
            (Step::Collect, Said::Yes),
            (Step::Begin(0), Said::Yes),
            (Step::Resolve(-3, 1), Said::Yes),
            (Step::Conclude(&[]), Said::Id(2)),
            (Step::IsRefuted(1), Said::No),
            (Step::IsRefuted(3), Said::No),
            (Step::IsRefuted(2), Said::Yes),
            (Step::Delete(2), Said::Yes),
            (Step::IsRefuted(2), Said::No),
        ],
    },
];

#[test]
fn each_step_of_a_proof_says_what_it_did(rt: HostRuntime) {
    for row in ROWS {
        let taken = takes_all(rt.alloc(), &mut RatKernel::new(rt.alloc()), row);
        assert!(rt; taken == Ok(true));
    }
}

// Whether the literals of a clause are those of some numbers once two were swapped.
fn gives(kernel: &mut RatKernel, i: usize, j: usize, wanted: &[i32]) -> bool {
    kernel.swap(1, i, j);
    are_at(kernel.literals(), kernel.span(1), wanted)
}

// Swaps literals of a clause, one of them a literal that it has not.
fn swap(alloc: Global, kernel: &mut RatKernel) -> Result<bool, AllocError> {
    add_all(alloc, kernel, &[5, 0, 1, -2, 3, 0])?;
    Ok(
        gives(kernel, 0, 3, &[1, -2, 3])
            && gives(kernel, 0, 2, &[3, -2, 1])
            && gives(kernel, 2, 1, &[3, 1, -2]),
    )
}

#[test]
fn literals_of_each_clause_change_places(rt: HostRuntime) {
    let swapped = swap(rt.alloc(), &mut RatKernel::new(rt.alloc()));
    assert!(rt; swapped == Ok(true));
}
