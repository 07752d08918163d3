//! Derivations: what each call says, and the clause that is derived.

use crate::numbers::{add_all, are, are_at, literal};
use gipsat_kernel::Kernel;
use gipsat_uses::pages::encoded::derive_b;
use std::alloc::{AllocError, Global};

// A step of a derivation.
#[derive(Clone, Copy)]
enum Step {
    Begin(usize),
    // The pivot, and the clause that has it.
    Resolve(i32, usize),
    Conclude,
    Cancel,
    // A clause of one literal more.
    Add(i32),
}

// What a step says: that it was taken, or not, or the id of a clause.
#[derive(Clone, Copy, PartialEq, Eq)]
enum Said {
    Yes,
    No,
    Id(usize),
}

fn answer(taken: bool) -> Said {
    if taken { Said::Yes } else { Said::No }
}

fn take(kernel: &mut Kernel, step: Step) -> Result<Said, AllocError> {
    match step {
        Step::Begin(id) => Ok(answer(kernel.begin(id)?)),
        Step::Resolve(pivot, id) => Ok(answer(kernel.resolve(literal(pivot), id)?)),
        Step::Conclude => match kernel.conclude()? {
            Some(id) => Ok(Said::Id(id)),
            None => Ok(Said::No),
        },
        Step::Cancel => {
            kernel.cancel();
            Ok(Said::Yes)
        }
        Step::Add(number) => Ok(Said::Id(kernel.add_clause(&[literal(number)])?)),
    }
}

// Whether each step says what is wanted.
fn takes_all(kernel: &mut Kernel, steps: &[(Step, Said)]) -> Result<bool, AllocError> {
    for (step, wanted) in steps {
        if take(kernel, *step)? != *wanted {
            return Ok(false);
        }
    }
    Ok(true)
}

// Whether the literals of the last working clause are those of some numbers.
fn is_last(kernel: &Kernel, numbers: &[i32]) -> bool {
    match kernel.clause(kernel.len().saturating_sub(1)) {
        Some(clause) => are(clause, numbers),
        None => false,
    }
}

// A formula, steps with what they say, and the last working clause behind them.
struct Row {
    formula: &'static [i32],
    steps: &'static [(Step, Said)],
    last: &'static [i32],
}

// Whether the steps of a row say what is wanted, and its last clause is.
fn holds(alloc: Global, kernel: &mut Kernel, row: &Row) -> Result<bool, AllocError> {
    add_all(alloc, kernel, row.formula)?;
    Ok(takes_all(kernel, row.steps)? && is_last(kernel, row.last))
}

const ROWS: &[Row] = &[
    // Two clauses are resolved.
    Row {
        formula: &[1, 2, 0, -1, 2, 0],
        steps: &[
            (Step::Begin(1), Said::Yes),
            (Step::Resolve(1, 0), Said::Yes),
            (Step::Conclude, Said::Id(2)),
        ],
        last: &[2],
    },
    // Nothing is being derived.
    Row {
        formula: &[1, 2, 0],
        steps: &[(Step::Resolve(-1, 0), Said::No), (Step::Conclude, Said::No)],
        last: &[1, 2],
    },
    Row {
        formula: &[1, 2, 0],
        steps: &[
            (Step::Begin(1), Said::No),
            (Step::Resolve(-1, 0), Said::No),
            (Step::Conclude, Said::No),
        ],
        last: &[1, 2],
    },
    Row {
        formula: &[1, 2, 0],
        steps: &[
            (Step::Begin(0), Said::Yes),
            (Step::Cancel, Said::Yes),
            (Step::Conclude, Said::No),
        ],
        last: &[1, 2],
    },
    Row {
        formula: &[1, 2, 0],
        steps: &[
            (Step::Begin(0), Said::Yes),
            (Step::Conclude, Said::Id(1)),
            (Step::Conclude, Said::No),
        ],
        last: &[1, 2],
    },
    Row {
        formula: &[1, 2, 0],
        steps: &[
            (Step::Begin(0), Said::Yes),
            (Step::Add(3), Said::Id(1)),
            (Step::Conclude, Said::No),
        ],
        last: &[3],
    },
    // The pivot's negation is not there, or the other clause.
    Row {
        formula: &[1, 2, 0],
        steps: &[
            (Step::Begin(0), Said::Yes),
            (Step::Resolve(1, 0), Said::No),
            (Step::Resolve(-1, 7), Said::No),
            (Step::Conclude, Said::Id(1)),
        ],
        last: &[1, 2],
    },
    // What was marked before is forgotten.
    Row {
        formula: &[1, 2, 0, -1, 3, 0],
        steps: &[
            (Step::Begin(0), Said::Yes),
            (Step::Begin(1), Said::Yes),
            (Step::Conclude, Said::Id(2)),
        ],
        last: &[-1, 3],
    },
    // A literal that repeats, or that comes back, stands once.
    Row {
        formula: &[1, 1, 2, 0],
        steps: &[(Step::Begin(0), Said::Yes), (Step::Conclude, Said::Id(1))],
        last: &[1, 2],
    },
    Row {
        formula: &[1, 2, 0, -1, 3, 0, -3, 1, 0],
        steps: &[
            (Step::Begin(0), Said::Yes),
            (Step::Resolve(-1, 1), Said::Yes),
            (Step::Resolve(-3, 2), Said::Yes),
            (Step::Conclude, Said::Id(3)),
        ],
        last: &[1, 2],
    },
    // A clause without the pivot gives a weaker clause.
    Row {
        formula: &[1, 2, 0, 4, 5, 0],
        steps: &[
            (Step::Begin(0), Said::Yes),
            (Step::Resolve(-1, 1), Said::Yes),
            (Step::Conclude, Said::Id(2)),
        ],
        last: &[2, 4, 5],
    },
    // The empty clause.
    Row {
        formula: &[1, 0, -1, 0],
        steps: &[
            (Step::Begin(0), Said::Yes),
            (Step::Resolve(-1, 1), Said::Yes),
            (Step::Conclude, Said::Id(2)),
        ],
        last: &[],
    },
];

#[test]
fn each_step_says_what_it_did(rt: HostRuntime) {
    for row in ROWS {
        let held = holds(rt.alloc(), &mut Kernel::new(rt.alloc()), row);
        assert!(rt; held == Ok(true));
    }
}

// Derives `2 or 3` from `1 or 2` and `not 1 or 3`, and does not conclude.
fn derive_open(alloc: Global, kernel: &mut Kernel) -> Result<(), AllocError> {
    add_all(alloc, kernel, &[1, 2, 0, -1, 3, 0])?;
    kernel.begin(0)?;
    kernel.resolve(literal(-1), 1)?;
    Ok(())
}

// Whether exactly the literals of the clause that is being derived are marked, and all that it had are listed.
fn marks_its_literals(kernel: &Kernel) -> bool {
    for (number, wanted) in &[
        (1, false),
        (-1, false),
        (2, true),
        (-2, false),
        (3, true),
        (4, false),
    ] {
        if kernel.is_marked(literal(*number)) != *wanted {
            return false;
        }
    }
    are(kernel.marked(), &[1, 2, 3])
}

// Whether the spans lead to the literals of the clauses.
fn spans_lead_to_clauses(kernel: &Kernel) -> bool {
    let literals = kernel.literals();
    are_at(literals, kernel.span(0), &[1, 2])
        && are_at(literals, kernel.span(1), &[-1, 3])
        && are_at(literals, kernel.span(2), &[2, 3])
        && kernel.span(3).is_none()
}

// Whether the marks and the spans are right before and behind the end of a derivation.
fn is_read(alloc: Global, kernel: &mut Kernel) -> Result<[bool; 2], AllocError> {
    derive_open(alloc, kernel)?;
    let are_marked = marks_its_literals(kernel);
    kernel.conclude()?;
    Ok([are_marked, spans_lead_to_clauses(kernel)])
}

#[test]
fn a_kernel_tells_marks_and_spans(rt: HostRuntime) {
    let read = is_read(rt.alloc(), &mut Kernel::new(rt.alloc()));
    assert!(rt; read == Ok([true, true]));
}

#[test]
fn the_example_derives_its_clause(rt: HostRuntime) {
    let derived = derive_b(&mut Kernel::new(rt.alloc()));
    assert!(rt; derived == Ok(true));
}
