//! Formulas: what the inner loops of a search read, and swaps.

use crate::numbers::{add_all, are, are_at};
use gipsat_cnf::{Cnf, Literal};
use gipsat_uses::pages::encoded::either_with;
use std::alloc::{AllocError, Global};

const FORMULA: &[i32] = &[1, -2, 0, 0, 3, 0];

fn formula(alloc: Global) -> Result<Cnf, AllocError> {
    let mut formula = Cnf::new(alloc);
    add_all(alloc, &mut formula, FORMULA)?;
    Ok(formula)
}

// Swaps two literals of the first clause. Whether its literals are then those of some numbers.
fn gives(formula: &mut Cnf, i: usize, j: usize, wanted: &[i32]) -> bool {
    formula.swap(0, i, j);
    are_at(formula.literals(), formula.span(0), wanted)
}

#[test]
fn literals_of_a_clause_change_places(rt: HostRuntime) -> Result<(), AllocError> {
    let mut formula = formula(rt.alloc())?;
    assert!(rt; gives(&mut formula, 0, 2, &[1, -2]));
    assert!(rt; gives(&mut formula, 1, 1, &[1, -2]));
    assert!(rt; gives(&mut formula, 0, 1, &[-2, 1]));
    Ok(())
}

// What is read of a formula.
fn is_read(formula: &Cnf) -> bool {
    formula.variables() == 4
        && are(formula.literals(), &[1, -2, 3])
        && are_at(formula.literals(), formula.span(0), &[1, -2])
        && are_at(formula.literals(), formula.span(1), &[])
        && are_at(formula.literals(), formula.span(2), &[3])
        && formula.span(3).is_none()
}

#[test]
fn a_formula_tells_its_literals(rt: HostRuntime) -> Result<(), AllocError> {
    assert!(rt; Cnf::new(rt.alloc()).variables() == 0);
    let formula = formula(rt.alloc())?;
    assert!(rt; is_read(&formula));
    let kept = formula.kept(rt.alloc(), &[false])?;
    assert!(rt; are(kept.literals(), &[3]));
    Ok(())
}

// Whether the walk over a formula gives the clauses of some numbers, in order, and `get` reads the same ones.
fn gives_clauses(formula: &Cnf, wanted: &[&[i32]]) -> bool {
    let mut place = 0usize;
    for clause in formula {
        let (Some(numbers), Some(read)) = (wanted.get(place), formula.get(place)) else {
            return false;
        };
        if !are(clause, numbers) || !are(read, numbers) {
            return false;
        }
        place = place.saturating_add(1);
    }
    place == wanted.len() && formula.iter().len() == place && formula.get(place).is_none()
}

#[test]
fn a_formula_is_walked_over(rt: HostRuntime) -> Result<(), AllocError> {
    let formula = formula(rt.alloc())?;
    assert!(rt; gives_clauses(&formula, &[&[1, -2], &[], &[3]]));
    let copy = formula.clone()?;
    assert!(rt; gives_clauses(&copy, &[&[1, -2], &[], &[3]]));
    Ok(())
}

#[test]
fn the_example_finds_values(rt: HostRuntime) -> Result<(), AllocError> {
    let found = either_with(rt.alloc(), Literal::new(0, false))?;
    assert!(rt; found.is_some());
    Ok(())
}
