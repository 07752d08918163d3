//! Each use of the solver: that it answers. What it answers is proved, but for the values of the first question.

use crate::numbers::{add_all, literal, literals};
use gipsat_cnf::{Budget, Literal};
use gipsat_encodings::counts::{Counter, add_at_least, add_at_most, add_exactly};
use gipsat_encodings::pairs::{add_at_least_one, add_at_most_one, add_exactly_one};
use gipsat_encodings::parity::add_parity;
use gipsat_solver::{AnswerUnder, Solver};
use gipsat_uses::colouring::colouring;
use gipsat_uses::first_question::values_with_c;
use gipsat_uses::follows::follows;
use gipsat_uses::incremental::{cover, longest_start, model_with};
use gipsat_uses::minimal_core::minimal_core;
use std::alloc::{AllocError, Global};

// Whether the first question is answered with the only values that there are.
fn are_found(alloc: Global) -> Result<bool, AllocError> {
    match values_with_c(alloc)? {
        Some(values) => Ok(values.as_slice() == [false, true, true].as_slice()),
        None => Ok(false),
    }
}

#[test]
fn the_only_values_are_found(rt: HostRuntime) {
    assert!(rt; are_found(rt.alloc()) == Ok(true));
}

// Where guard 1 to 4 is true, its clause holds: 5 or 6, not 5 or 6, not 6, 6 or 7.
fn add_guarded(solver: &mut Solver) -> Result<(), AllocError> {
    solver.add_clause(&[literal(-1), literal(5), literal(6)])?;
    solver.add_clause(&[literal(-2), literal(-5), literal(6)])?;
    solver.add_clause(&[literal(-3), literal(-6)])?;
    solver.add_clause(&[literal(-4), literal(6), literal(7)])
}

// Whether all guards have a minimal core where 7 is false, and the first two have none.
fn have_cores(alloc: Global, solver: &mut Solver) -> Result<[bool; 2], AllocError> {
    add_guarded(solver)?;
    let all = [literal(4), literal(1), literal(2), literal(-7), literal(3)];
    let some = [literal(1), literal(2)];
    let first = minimal_core(alloc, solver, &all, 1000)?.is_some();
    let second = minimal_core(alloc, solver, &some, 1000)?.is_some();
    Ok([first, second])
}

#[test]
fn a_minimal_core_is_found(rt: HostRuntime) {
    let found = have_cores(rt.alloc(), &mut Solver::new(rt.alloc()));
    assert!(rt; found == Ok([true, false]));
}

// Whether the first variables that a solver without clauses gives are 0 and 1, and its clause of 1 and 7 is heeded.
fn gives_variables(solver: &mut Solver) -> Result<bool, AllocError> {
    let before = solver.variables();
    let first = solver.new_variable()?;
    let second = solver.new_variable()?;
    solver.add_clause(&[literal(1), literal(7)])?;
    Ok(before == 0 && first.variable() == 0 && second.variable() == 1 && solver.variables() == 8)
}

// A clause that holds while a new variable is assumed, and is taken back with it: which variable it is, how many there
// are then, and whether no model breaks the clause before, and one does after.
fn take_back(solver: &mut Solver) -> Result<(u32, usize, [bool; 2]), AllocError> {
    let guard = solver.new_variable()?;
    solver.add_clause(&[guard.negated(), literal(1)])?;
    let under = solver.solve_under(&[guard, literal(-1)], 1000)?;
    solver.add_clause(&[guard.negated()])?;
    let without = solver.solve_under(&[literal(-1)], 1000)?;
    let holds = matches!(under, AnswerUnder::Unsat(_));
    let is_gone = matches!(without, AnswerUnder::Sat(_));
    Ok((guard.variable(), solver.variables(), [holds, is_gone]))
}

#[test]
fn new_variables_are_above_all(rt: HostRuntime) {
    let mut solver = Solver::new(rt.alloc());
    assert!(rt; gives_variables(&mut solver) == Ok(true));
    assert!(rt; take_back(&mut solver) == Ok((8, 9, [true, true])));
    assert!(rt; take_back(&mut solver) == Ok((9, 10, [true, true])));
}

// How many literals are said to be true.
#[derive(Clone, Copy)]
enum Count {
    AtLeastOne,
    AtMostOne,
    ExactlyOne,
    AtLeastTwo,
    AtMostTwo,
    ExactlyTwo,
    Odd,
}

// What is said of four variables, and the assumptions of questions behind it.
const QUESTIONS: &[(Count, &[&[i32]])] = &[
    (Count::ExactlyOne, &[&[], &[3], &[2, 3], &[-1, -2, -3, -4]]),
    (Count::AtMostOne, &[&[-1, -2, -3, -4], &[1], &[1, 2]]),
    (
        Count::AtLeastOne,
        &[&[1, 2, 3, 4], &[-2, -3, -4], &[-1, -2, -3, -4]],
    ),
    (Count::AtLeastTwo, &[&[], &[-1, -2], &[-1, -2, -3]]),
    (Count::AtMostTwo, &[&[], &[1, 2], &[1, 2, 3]]),
    (Count::ExactlyTwo, &[&[1, 2], &[-1, -2], &[1, 2, 3]]),
    (Count::Odd, &[&[1, -2, -3], &[1, 2, 3, 4]]),
];

fn add(
    alloc: Global,
    solver: &mut Solver,
    variables: &mut usize,
    count: Count,
    literals: &[Literal],
) -> Result<(), AllocError> {
    match count {
        Count::AtLeastOne => add_at_least_one(solver, literals),
        Count::AtMostOne => add_at_most_one(solver, literals),
        Count::ExactlyOne => add_exactly_one(solver, literals),
        _ => add_counted(alloc, solver, variables, count, literals),
    }
}

// The same, where clauses have variables of their own.
fn add_counted(
    alloc: Global,
    solver: &mut Solver,
    variables: &mut usize,
    count: Count,
    literals: &[Literal],
) -> Result<(), AllocError> {
    match count {
        Count::AtLeastTwo => {
            add_at_least(alloc, solver, variables, literals, 2, Counter::Totalizer)
        }
        Count::AtMostTwo => {
            add_at_most(alloc, solver, variables, literals, 2, Counter::Sequential)
        }
        Count::ExactlyTwo => {
            add_exactly(alloc, solver, variables, literals, 2, Counter::Totalizer)
        }
        _ => add_parity(solver, variables, literals, true),
    }
}

fn is_answered(alloc: Global, solver: &mut Solver, assumed: &[i32]) -> Result<bool, AllocError> {
    let answer = solver.solve_under(&literals(alloc, assumed)?, 1000)?;
    Ok(!matches!(answer, AnswerUnder::Unknown))
}

// How many questions are answered behind what is said of the variables.
fn answered(
    alloc: Global,
    solver: &mut Solver,
    count: Count,
    questions: &[&[i32]],
) -> Result<usize, AllocError> {
    let mut variables = 5;
    let counted = literals(alloc, &[1, 2, 3, 4])?;
    add(alloc, solver, &mut variables, count, &counted)?;
    let mut answered = 0usize;
    for assumed in questions {
        let is_one = is_answered(alloc, solver, assumed)?;
        answered = answered.saturating_add(usize::from(is_one));
    }
    Ok(answered)
}

#[test]
fn questions_of_how_many_are_true_are_answered(rt: HostRuntime) {
    for (count, questions) in QUESTIONS {
        let said = answered(rt.alloc(), &mut Solver::new(rt.alloc()), *count, questions);
        assert!(rt; said == Ok(questions.len()));
    }
}

// Covers pairs that can be covered, and some that can't.
fn cover_pairs(alloc: Global) -> Result<(), AllocError> {
    let (a, b) = (literal(1), literal(2));
    cover::<Solver>(alloc, &[(a, b), (a.negated(), b)])?;
    cover::<Solver>(
        alloc,
        &[(a, b), (a, b.negated()), (a.negated(), a.negated())],
    )?;
    Ok(())
}

// Of 1 to 4 each is true where the one before it is, and 1 or 4 is.
const CHAIN: &[i32] = &[-1, 2, 0, -2, 3, 0, -3, 4, 0, 1, 4, 0];

// The chain, and a formula that nothing satisfies.
const FORMULAS: &[&[i32]] = &[CHAIN, &[0]];

// Adds facts to the chain, up to some that can't be true.
fn add_facts(alloc: Global, solver: &mut Solver) -> Result<(), AllocError> {
    add_all(alloc, solver, CHAIN)?;
    for facts in &[[1, 2], [3, 4], [3, -4]] {
        model_with(solver, &literals(alloc, facts)?)?;
    }
    Ok(())
}

// How many facts a formula takes.
fn taken(alloc: Global, solver: &mut Solver, formula: &[i32]) -> Result<Option<usize>, AllocError> {
    add_all(alloc, solver, formula)?;
    longest_start(solver, &literals(alloc, &[2, -1, 3, -4, 1])?)
}

#[test]
fn formulas_that_grow_are_answered(rt: HostRuntime) {
    let alloc = rt.alloc();
    assert!(rt; cover_pairs(alloc).is_ok());
    assert!(rt; add_facts(alloc, &mut Solver::new(alloc)).is_ok());
    for formula in FORMULAS {
        assert!(rt; taken(alloc, &mut Solver::new(alloc), formula).is_ok());
    }
}

// Whether a triangle has a colouring by two colours, and by three.
fn are_coloured(alloc: Global) -> Result<[bool; 2], AllocError> {
    let edges = [(0, 1), (1, 2), (2, 0)];
    let by_two = colouring::<Solver>(alloc, 3, &edges, 2)?.is_some();
    let by_three = colouring::<Solver>(alloc, 3, &edges, 3)?.is_some();
    Ok([by_two, by_three])
}

#[test]
fn a_triangle_is_coloured(rt: HostRuntime) {
    assert!(rt; are_coloured(rt.alloc()) == Ok([false, true]));
}

// What is told of clauses: that 4 is true, that 1 is, and that 3 is where 2 is.
fn told(alloc: Global, solver: &mut Solver) -> Result<[Option<bool>; 3], AllocError> {
    add_all(alloc, solver, CHAIN)?;
    let budget = Budget {
        clauses: 1000,
        propagations: u64::MAX,
    };
    let last = follows(alloc, solver, &[literal(4)], budget)?;
    let first = follows(alloc, solver, &[literal(1)], budget)?;
    let step = follows(alloc, solver, &[literal(-2), literal(3)], budget)?;
    Ok([last, first, step])
}

#[test]
fn it_is_told_what_follows(rt: HostRuntime) {
    let told = told(rt.alloc(), &mut Solver::new(rt.alloc()));
    assert!(rt; told == Ok([Some(true), Some(false), Some(true)]));
}
