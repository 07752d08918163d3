//! Literals as numbers: 1 is the first variable and -1 its negation. Behind each clause of a formula stands a 0.

use gipsat_cnf::{ClauseSink, Literal, Span};
use std::alloc::{AllocError, Global};

/// The literal of a number.
pub(crate) fn literal(number: i32) -> Literal {
    Literal::new(number.unsigned_abs().min(1_000_000), number > 0)
}

/// The literals of numbers.
pub(crate) fn literals(alloc: Global, numbers: &[i32]) -> Result<Vec<Literal>, AllocError> {
    let mut clause = Vec::new(alloc);
    for number in numbers {
        clause.push(literal(*number))?;
    }
    Ok(clause)
}

/// Adds the clauses whose literals these are, each with a 0 behind it.
pub(crate) fn add_all<S: ClauseSink>(
    alloc: Global,
    sink: &mut S,
    numbers: &[i32],
) -> Result<(), AllocError> {
    let mut clause = Vec::new(alloc);
    for number in numbers {
        if *number == 0 {
            sink.add_clause(&clause)?;
            clause.clear();
        } else {
            clause.push(literal(*number))?;
        }
    }
    Ok(())
}

/// Whether literals are those of some numbers.
pub(crate) fn are(found: &[Literal], numbers: &[i32]) -> bool {
    if found.len() != numbers.len() {
        return false;
    }
    for (l, number) in found.iter().zip(numbers) {
        if l.to_dimacs() != *number {
            return false;
        }
    }
    true
}

/// Whether the literals at a span are those of some numbers, as they are where there is no span and no number.
pub(crate) fn are_at(literals: &[Literal], span: Option<Span>, numbers: &[i32]) -> bool {
    match span {
        Some(span) => match literals.get(span.start as usize..span.end as usize) {
            Some(found) => are(found, numbers),
            None => false,
        },
        None => numbers.is_empty(),
    }
}
