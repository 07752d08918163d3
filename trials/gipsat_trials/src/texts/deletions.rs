//! So many deletions that the memory of the deleted clauses is given back.
//!
//! A deletion that is refused memory is made again. So the test passes where `tests/refused.py` refuses one of its
//! requests once all clauses are there, and shows that such a deletion forgets no clause.

use gipsat_cnf::Literal;
use gipsat_drat::Checker;
use std::alloc::{AllocError, Global};

// How many clauses are given.
const GIVEN: u32 = 1_200;

// How many of them are deleted, which are more than half.
const DELETED: u32 = 1_100;

// One of two neighbours.
fn neighbours(variable: u32) -> [Literal; 2] {
    [
        Literal::new(variable, true),
        Literal::new(variable + 1, true),
    ]
}

// Gives the clauses of all neighbours.
fn give(checker: &mut Checker) -> Result<(), AllocError> {
    for variable in 0..GIVEN {
        checker.give(&neighbours(variable))?;
    }
    Ok(())
}

// Whether a clause is found, at once or when it is asked for again.
fn is_deleted(checker: &mut Checker, clause: &[Literal]) -> bool {
    match checker.delete(clause) {
        Ok(found) => found,
        Err(_) => checker.delete(clause) == Ok(true),
    }
}

// How many of the first clauses are found.
fn deleted(checker: &mut Checker) -> u32 {
    let mut found = 0u32;
    for variable in 0..DELETED {
        found = found.saturating_add(u32::from(is_deleted(checker, &neighbours(variable))));
    }
    found
}

// Whether the empty clause is shown where two neighbours are known to be false.
fn refutes(checker: &mut Checker, variable: u32) -> Result<bool, AllocError> {
    checker.give(&[Literal::new(variable, false)])?;
    checker.give(&[Literal::new(variable + 1, false)])?;
    Ok(checker.is_refuted())
}

// Whether each clause that is deleted is found once, and the others are there.
fn forgets(checker: &mut Checker) -> Result<bool, AllocError> {
    give(checker)?;
    let (first, again) = (deleted(checker), deleted(checker));
    let (old, new) = (refutes(checker, 500)?, refutes(checker, 1_150)?);
    let found = is_deleted(checker, &neighbours(1_199));
    Ok(first == DELETED && again == 0 && !old && new && found)
}

#[test]
fn forgets_deleted_clauses_alone(rt: HostRuntime) -> Result<(), AllocError> {
    let mut checker = Checker::new(rt.alloc(), GIVEN + 1)?;
    assert!(rt; forgets(&mut checker)?);
    Ok(())
}
