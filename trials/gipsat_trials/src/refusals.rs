//! Small questions, with so few requests for memory that `tests/refused.py` refuses each: where one is refused, the call
//! says so, and the test ends with that error.

use crate::numbers::{add_all, literal};
use gipsat_solver::{Answer, AnswerUnder, Literal, Solver};
use std::alloc::{AllocError, Global};

// What is asked of a solver.
#[derive(Clone, Copy)]
enum Question {
    Limited,
    WithNoLimit,
    // Under assumptions, and then under the core alone.
    Assumed,
    // Once more where the formula is simplified behind the first conflict.
    Simplified,
}

// The four clauses over two variables: no model, which is seen behind a conflict alone.
const CLASHING: &[i32] = &[1, 2, 0, -1, 2, 0, 1, -2, 0, -1, -2, 0];

// Formulas, what is asked of them, and whether there are values.
const ROWS: &[(&[i32], Question, bool)] = &[
    (&[1, 2, 0, -1, 2, 0, 1, -2, 0], Question::Limited, true),
    (CLASHING, Question::Limited, false),
    (CLASHING, Question::WithNoLimit, false),
    (
        &[1, 2, -9, 0, -1, 2, 0, 1, -2, 0, -1, -2, 0],
        Question::Assumed,
        false,
    ),
    // The variable 4 has to be true.
    (
        &[
            1, 2, 3, 0, 1, 2, -3, 0, -1, 2, 0, 1, -2, 0, -1, -2, 0, 4, 0, 4, 1, 0,
        ],
        Question::Simplified,
        false,
    ),
];

// Whether there are values. None if it is left open.
fn solved(solver: &mut Solver) -> Result<Option<bool>, AllocError> {
    Ok(match solver.solve(100)? {
        Answer::Sat(_) => Some(true),
        Answer::Unsat => Some(false),
        Answer::Unknown => None,
    })
}

// What is said of a core of two assumptions.
fn solved_under(solver: &mut Solver) -> Result<Option<bool>, AllocError> {
    match solver.solve_under(&[literal(8), literal(9)], 100)? {
        AnswerUnder::Unsat(core) => solved_under_core(solver, &core),
        _ => Ok(None),
    }
}

fn solved_under_core(solver: &mut Solver, core: &[Literal]) -> Result<Option<bool>, AllocError> {
    let answer = solver.solve_under(core, 100)?;
    Ok(matches!(answer, AnswerUnder::Unsat(_)).then_some(false))
}

// What a solver without clauses says of a formula.
fn said_of(
    alloc: Global,
    solver: &mut Solver,
    formula: &[i32],
    question: Question,
) -> Result<Option<bool>, AllocError> {
    add_all(alloc, solver, formula)?;
    match question {
        Question::Limited => solved(solver),
        Question::WithNoLimit => Ok(Some(solver.find_model()?.is_some())),
        Question::Assumed => solved_under(solver),
        Question::Simplified => {
            let _ = solver.solve(1)?;
            solver.simplify()?;
            solved(solver)
        }
    }
}

#[test]
fn small_questions_are_answered(rt: HostRuntime) -> Result<(), AllocError> {
    for (formula, question, wanted) in ROWS {
        let said = said_of(rt.alloc(), &mut Solver::new(rt.alloc()), formula, *question)?;
        assert!(rt; said == Some(*wanted));
    }
    Ok(())
}
