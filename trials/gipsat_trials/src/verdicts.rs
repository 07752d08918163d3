//! Verdicts of a kernel, and clauses that go. No clause of a contract says that one is `None` or false only where it has
//! to be.

use crate::numbers::{add_all, are, literal, literals};
use gipsat_cnf::Literal;
use gipsat_kernel::Kernel;
use std::alloc::{AllocError, Global};

// What is asked of a kernel.
#[derive(Clone, Copy)]
enum Question {
    IsRefuted(usize),
    // A core of these, by a clause.
    HasCore(usize, &'static [i32]),
    Proves(usize, &'static [i32]),
    Subsumes(usize, usize),
}

fn answer(alloc: Global, kernel: &mut Kernel, question: Question) -> Result<bool, AllocError> {
    match question {
        Question::IsRefuted(id) => Ok(kernel.is_refuted(id)),
        Question::HasCore(id, assumed) => has_core(alloc, kernel, id, &literals(alloc, assumed)?),
        Question::Proves(id, clause) => Ok(kernel.proves(id, &literals(alloc, clause)?)),
        Question::Subsumes(id, by) => Ok(kernel.subsume(id, by)),
    }
}

fn has_core(
    alloc: Global,
    kernel: &mut Kernel,
    id: usize,
    assumed: &[Literal],
) -> Result<bool, AllocError> {
    Ok(kernel.core(alloc, id, assumed)?.is_some())
}

fn answer_over(
    alloc: Global,
    kernel: &mut Kernel,
    formula: &[i32],
    question: Question,
) -> Result<bool, AllocError> {
    add_all(alloc, kernel, formula)?;
    answer(alloc, kernel, question)
}

const ROWS: &[(&[i32], Question, bool)] = &[
    (&[1, 0, 0], Question::IsRefuted(0), false),
    (&[1, 0, 0], Question::IsRefuted(1), true),
    (&[1, 0, 0], Question::IsRefuted(2), false),
    (&[1, 2, 0], Question::HasCore(0, &[-1, -2, 3]), true),
    (&[1, 2, 0], Question::HasCore(0, &[-1, 3]), false),
    (&[1, 2, 0], Question::HasCore(0, &[1, 2]), false),
    (&[1, 2, 0], Question::HasCore(1, &[-1, -2]), false),
    (&[0], Question::HasCore(0, &[]), true),
    (&[9, 0], Question::HasCore(0, &[-9, 12]), true),
    (&[-9, 0], Question::HasCore(0, &[9]), true),
    (&[1, 2, 0], Question::Proves(0, &[2, 3, 1]), true),
    (&[1, 2, 0], Question::Proves(0, &[1, 3]), false),
    (&[1, 2, 0], Question::Proves(0, &[1, -2]), false),
    (&[1, 2, 0], Question::Proves(1, &[1, 2]), false),
    (&[1, 2, 3, 0, 2, 0], Question::Subsumes(0, 1), true),
    (&[1, 2, 3, 0, 2, 0], Question::Subsumes(1, 0), false),
    (&[1, 2, 3, 0, 2, 0], Question::Subsumes(0, 0), false),
    (&[1, 2, 3, 0, 2, 0], Question::Subsumes(0, 2), false),
];

#[test]
fn each_question_is_answered(rt: HostRuntime) -> Result<(), AllocError> {
    for (formula, question, wanted) in ROWS {
        let said = answer_over(rt.alloc(), &mut Kernel::new(rt.alloc()), formula, *question)?;
        assert!(rt; said == *wanted);
    }
    Ok(())
}

// Clauses, each with a 0 behind it.
const GIVEN: &[i32] = &[1, 2, 0, -1, 2, 0, 3, 0];

// Adds them, and derives `2` from the first two.
fn derive_unit(alloc: Global, kernel: &mut Kernel) -> Result<(), AllocError> {
    add_all(alloc, kernel, GIVEN)?;
    kernel.keep_chains(true);
    derive(kernel)
}

fn derived(alloc: Global) -> Result<Kernel, AllocError> {
    let mut kernel = Kernel::new(alloc);
    derive_unit(alloc, &mut kernel)?;
    Ok(kernel)
}

// Whether a chain names the clauses that were used, and the derived clause alone is none of the formula.
fn tells_its_derivation(kernel: &Kernel) -> bool {
    kernel.chain(3) == [0, 1].as_slice()
        && kernel.chain(2).is_empty()
        && kernel.is_original(2)
        && !kernel.is_original(3)
        && !kernel.is_original(4)
        && kernel.variables() == 4
        && !kernel.is_empty()
}

#[test]
fn a_chain_names_the_clauses_that_were_used(rt: HostRuntime) -> Result<(), AllocError> {
    let kernel = derived(rt.alloc())?;
    assert!(rt; tells_its_derivation(&kernel));
    Ok(())
}

// Whether the working clauses are those of some numbers, each with a 0 behind it.
fn has_clauses(kernel: &Kernel, numbers: &[i32]) -> bool {
    let mut place = 0usize;
    for id in 0..kernel.len() {
        let clause = kernel.clause(id).unwrap_or(&[]);
        let end = place.saturating_add(clause.len());
        if !are(clause, numbers.get(place..end).unwrap_or(&[0])) || numbers.get(end) != Some(&0) {
            return false;
        }
        place = end.saturating_add(1);
    }
    place == numbers.len()
}

// Drops what may go, by flags. Whether what stays are these clauses.
fn keeps(
    alloc: Global,
    kernel: &mut Kernel,
    stays: &mut [bool],
    numbers: &[i32],
) -> Result<bool, AllocError> {
    kernel.collect(alloc, stays)?;
    Ok(has_clauses(kernel, numbers))
}

#[test]
fn the_clauses_of_the_formula_stay(rt: HostRuntime) -> Result<(), AllocError> {
    let mut kernel = derived(rt.alloc())?;
    let mut stays = [false; 4];
    assert!(rt; keeps(rt.alloc(), &mut kernel, &mut stays, GIVEN)?);
    assert!(rt; stays == [true, true, true, false]);
    Ok(())
}

// Lets the derived clause stand for the other two that have its literal.
fn subsume(kernel: &mut Kernel) -> bool {
    kernel.subsume(0, 3)
        && kernel.subsume(1, 3)
        && kernel.is_original(3)
        && !kernel.is_original(0)
        && !kernel.is_original(1)
        && !kernel.is_model(&[false, true, false, true], &[])
}

// A clause past the flags stays.
#[test]
fn subsumed_clauses_go(rt: HostRuntime) -> Result<(), AllocError> {
    let mut kernel = derived(rt.alloc())?;
    assert!(rt; subsume(&mut kernel));
    assert!(rt;
        keeps(
            rt.alloc(),
            &mut kernel,
            &mut [false],
            &[-1, 2, 0, 3, 0, 2, 0]
        )?
    );
    Ok(())
}

// Swaps the literals of a clause of the formula, and of a copy of it that was derived.
fn swap(alloc: Global, kernel: &mut Kernel) -> Result<bool, AllocError> {
    add_all(alloc, kernel, &[1, 2, 0])?;
    kernel.begin(0)?;
    kernel.conclude()?;
    for id in 0..3 {
        kernel.swap(id, 0, 1);
    }
    Ok(has_clauses(kernel, &[1, 2, 0, 2, 1, 0]))
}

#[test]
fn literals_of_derived_clauses_change_places(rt: HostRuntime) {
    let swapped = swap(rt.alloc(), &mut Kernel::new(rt.alloc()));
    assert!(rt; swapped == Ok(true));
}

// Derives `2` from the first two clauses.
fn derive(kernel: &mut Kernel) -> Result<(), AllocError> {
    kernel.begin(0)?;
    kernel.resolve(literal(-1), 1)?;
    kernel.conclude()?;
    Ok(())
}

// Whether nothing is being derived behind a derivation, also behind one that was refused memory.
fn is_closed(alloc: Global, kernel: &mut Kernel) -> Result<bool, AllocError> {
    add_all(alloc, kernel, GIVEN)?;
    kernel.keep_chains(true);
    let _ = derive(kernel);
    Ok(kernel.conclude()?.is_none() && kernel.len() <= 4)
}

// It shows more where a request of the derivation is refused: `tests/refused.py` refuses each.
#[test]
fn no_derivation_is_left_open(rt: HostRuntime) -> Result<(), AllocError> {
    assert!(rt; is_closed(rt.alloc(), &mut Kernel::new(rt.alloc()))?);
    Ok(())
}
