//! What a call costs: its search, and not what the formula says besides.

use crate::numbers::literal;
use gipsat_solver::{AnswerUnder, Literal, Solver};
use std::alloc::AllocError;

// Variables up to this one: the first has to be true, and each next one where the one before it is.
fn add_chain(solver: &mut Solver, last: u16) -> Result<(), AllocError> {
    solver.add_clause(&[Literal::new(1, true)])?;
    for variable in 1..last {
        let variable = u32::from(variable);
        solver.add_clause(&[
            Literal::new(variable, false),
            Literal::new(variable + 1, true),
        ])?;
    }
    Ok(())
}

// How many literals a call propagates that asks under assumptions which can't be true together, and how many of these its
// core has.
fn cost_of_a_call(
    solver: &mut Solver,
    assumptions: &[Literal],
) -> Result<(u64, usize), AllocError> {
    let before = solver.stats().propagations;
    let core = match solver.solve_under(assumptions, 10)? {
        AnswerUnder::Unsat(core) => core.len(),
        _ => 0,
    };
    Ok((solver.stats().propagations.saturating_sub(before), core))
}

// Adds a clause, with a chain of 1000 variables beside it.
fn add_beside_a_chain(solver: &mut Solver) -> Result<(), AllocError> {
    add_chain(solver, 1000)?;
    solver.add_clause(&[literal(-2001), literal(2002)])
}

// What a first call costs under assumptions that contradict the clause, a second one, and one after one more clause.
fn costs(solver: &mut Solver) -> Result<[(u64, usize); 3], AllocError> {
    add_beside_a_chain(solver)?;
    let assumptions = [literal(2001), literal(-2002)];
    let first = cost_of_a_call(solver, &assumptions)?;
    let second = cost_of_a_call(solver, &assumptions)?;
    solver.add_clause(&[literal(2001), literal(2003)])?;
    Ok([first, second, cost_of_a_call(solver, &assumptions)?])
}

#[test]
fn a_later_call_costs_its_search_alone(rt: HostRuntime) -> Result<(), AllocError> {
    let [first, second, third] = costs(&mut Solver::new(rt.alloc()))?;
    assert!(rt; first.0 >= 1000 && first.1 == 2);
    assert!(rt; second.0 <= 4 && second.1 == 2);
    assert!(rt; third.0 <= 4 && third.1 == 2);
    Ok(())
}

// Asks so often what propagation alone refutes. Whether the solver has few clauses then.
fn has_few_clauses_after(solver: &mut Solver, questions: u32) -> Result<bool, AllocError> {
    solver.add_clause(&[literal(-1), literal(2)])?;
    for _ in 0..questions {
        let _ = solver.solve_under(&[literal(1), literal(-2)], 10)?;
    }
    Ok(solver.len() < 100)
}

// Each of them derives a clause, the core.
#[test]
fn the_clauses_of_refuted_questions_are_freed(rt: HostRuntime) {
    let has_few = has_few_clauses_after(&mut Solver::new(rt.alloc()), 10_000);
    assert!(rt; has_few == Ok(true));
}

// Adds clauses that hold while a variable is true, takes them back, and simplifies.
fn take_back(solver: &mut Solver, variable: u16) -> Result<(), AllocError> {
    let holds = Literal::new(u32::from(variable), true);
    for other in 0..50 {
        let (a, b) = (
            Literal::new(other, true),
            Literal::new(other + 1, other % 2 == 0),
        );
        solver.add_clause(&[holds.negated(), a, b])?;
    }
    let _ = solver.solve_under(&[holds], 10)?;
    solver.add_clause(&[holds.negated()])?;
    solver.simplify()
}

// Rounds of such clauses, each with a variable of its own. How many clauses the solver has then.
fn take_back_in_rounds(solver: &mut Solver, rounds: u16) -> Result<usize, AllocError> {
    for round in 0..rounds {
        take_back(solver, round.saturating_add(60))?;
    }
    Ok(solver.len())
}

// 100 rounds add 5000 clauses beside the 100 that take them back.
#[test]
fn clauses_that_were_taken_back_are_dropped(rt: HostRuntime) -> Result<(), AllocError> {
    let left = take_back_in_rounds(&mut Solver::new(rt.alloc()), 100)?;
    assert!(rt; left < 200);
    Ok(())
}
