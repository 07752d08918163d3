//! Random sessions: clauses are added, questions asked and clauses dropped in any order. That an answer is right is a
//! clause of its contract. No clause says that a question is answered at all, nor that the search finds the answer: where
//! it leaves a clause open, all values are tried.
//!
//! No call is asked whether it was refused memory, but the last one of a session. `tests/rows.py` has sessions in which
//! each request is refused in turn.

use crate::random::Random;
use gipsat_solver::{Budget, Literal, Solver};
use std::alloc::AllocError;

// How many variables a session has at the most.
const MOST_VARIABLES: u32 = 12;

// How many sessions there are, and how many steps each has.
const SESSIONS: u32 = 800;

const STEPS: u32 = 60;

// Three literals, the last one of all variables that there may be.
fn three(random: &mut Random, variables: u32) -> [Literal; 3] {
    [
        random.literal(variables),
        random.literal(variables),
        random.literal(MOST_VARIABLES),
    ]
}

// Adds a clause of one to three literals.
fn add_some(solver: &mut Solver, random: &mut Random, variables: u32) {
    let [a, b, _] = three(random, variables);
    let c = random.literal(variables);
    let _ = match random.below(16) {
        0 => solver.add_clause(&[a]),
        1..=5 => solver.add_clause(&[a, b]),
        _ => solver.add_clause(&[a, b, c]),
    };
}

// Asks under one to three assumptions.
fn ask_under_some(solver: &mut Solver, random: &mut Random, variables: u32, limit: usize) {
    let assumptions = three(random, variables);
    let count = 1 + (random.below(4) as usize).min(2);
    if let Some(assumptions) = assumptions.get(..count) {
        let _ = solver.solve_under(assumptions, limit);
    }
}

// Guesses under two assumptions, within a domain of up to four variables or within all.
fn guess_under_some(solver: &mut Solver, random: &mut Random, variables: u32, limit: usize) {
    let assumptions = [random.literal(variables), random.literal(MOST_VARIABLES)];
    let domain = [
        random.below(variables),
        random.below(variables),
        random.below(variables),
        random.below(MOST_VARIABLES),
    ];
    let size = random.below(6) as usize;
    let _ = match domain.get(..size) {
        Some(domain) => solver.guess_within(domain, &assumptions, limit),
        None => solver.guess_under(&assumptions, limit),
    };
}

// Asks within a budget of clauses and of propagations.
fn ask_limited(solver: &mut Solver, random: &mut Random, clauses: usize) {
    let propagations = u64::from(random.below(40));
    let _ = solver.solve_limited(
        &[],
        Budget {
            clauses,
            propagations,
        },
    );
}

// Asks, guesses, tidies, eliminates or shortens in a random way.
fn make_some_call(solver: &mut Solver, random: &mut Random, variables: u32) {
    let limit = random.below(6) as usize;
    match random.below(18) {
        0..=1 => {
            let _ = solver.solve(limit);
        }
        2..=4 => ask_under_some(solver, random, variables, limit),
        5 => ask_limited(solver, random, limit),
        6 => {
            let _ = solver.find_model();
        }
        7..=10 => {
            let frozen = [random.below(variables)];
            let _ = solver.eliminate(&frozen, u64::from(random.below(2000)));
        }
        11..=12 => {
            let _ = solver.simplify();
        }
        13..=15 => guess_under_some(solver, random, variables, limit),
        _ => {
            let _ = solver.vivify(u64::from(random.below(400)));
        }
    }
}

// How many clauses were found open in a session where all variables had been decided: a search that is right does not
// leave one.
fn left_open(solver: &mut Solver, random: &mut Random) -> Result<u64, AllocError> {
    let variables = random.below(MOST_VARIABLES - 7).saturating_add(8);
    for _ in 0..STEPS {
        if random.below(2) > 0 {
            add_some(solver, random, variables);
        } else {
            make_some_call(solver, random, variables);
        }
    }
    solver.find_model()?;
    Ok(solver.stats().left_open)
}

#[test]
fn random_sessions_leave_no_clause_open(rt: HostRuntime) {
    for seed in 0..SESSIONS {
        let open = left_open(&mut Solver::new(rt.alloc()), &mut Random::new(seed));
        assert!(rt; open == Ok(0), "seed {seed}");
    }
}
