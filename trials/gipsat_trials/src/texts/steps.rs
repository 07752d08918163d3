//! Steps one after another, each of which is taken or refused as it should be, also behind one that was refused.

use gipsat_cnf::Literal;
use gipsat_drat::Checker;
use std::alloc::{AllocError, Global};

// What is asked of a checker.
#[derive(Clone, Copy)]
enum Call {
    Give,
    Add,
    // It adds a clause that is neither RUP nor RAT.
    Refuse,
    Delete,
    // It deletes a clause that is not held.
    Miss,
}

// A definition of the fifth variable, which is RAT, and clauses by unit propagation, up to the empty one.
const STEPS: [(Call, &[i8]); 23] = [
    (Call::Give, &[1, 2, 3]),
    (Call::Give, &[1, 2, -3]),
    (Call::Give, &[1, -2, 3]),
    (Call::Give, &[1, -2, -3]),
    (Call::Give, &[-1, 2, 3]),
    (Call::Give, &[-1, 2, -3]),
    (Call::Give, &[-1, -2, 3, 4]),
    (Call::Give, &[-1, -2, -3, 4]),
    (Call::Give, &[-4]),
    (Call::Add, &[5, -1, -2]),
    (Call::Add, &[-5, 1]),
    (Call::Add, &[-5, 2]),
    (Call::Refuse, &[5]),
    (Call::Miss, &[5]),
    (Call::Refuse, &[4, 3]),
    (Call::Miss, &[3, 4]),
    (Call::Add, &[1, 2]),
    (Call::Delete, &[3, 2, 1]),
    (Call::Delete, &[1, 2, -3]),
    (Call::Add, &[1]),
    (Call::Delete, &[2, 1]),
    (Call::Add, &[-5]),
    (Call::Add, &[]),
];

// The clause of some numbers of literals.
fn clause_of(alloc: Global, numbers: &[i8]) -> Result<Vec<Literal>, AllocError> {
    let mut clause = Vec::new(alloc);
    for number in numbers {
        clause.push(Literal::new(u32::from(number.unsigned_abs()), *number > 0))?;
    }
    Ok(clause)
}

// Whether a step is taken.
fn ask(checker: &mut Checker, call: Call, clause: &[Literal]) -> Result<bool, AllocError> {
    match call {
        Call::Give => {
            checker.give(clause)?;
            Ok(true)
        }
        Call::Add => checker.add(clause),
        Call::Refuse => Ok(!checker.add(clause)?),
        Call::Delete => checker.delete(clause),
        Call::Miss => Ok(!checker.delete(clause)?),
    }
}

// How many steps are taken, and whether the empty clause is shown.
fn taken(alloc: Global, checker: &mut Checker) -> Result<(usize, bool), AllocError> {
    let mut count = 0usize;
    for (call, numbers) in &STEPS {
        let clause = clause_of(alloc, numbers)?;
        count = count.saturating_add(usize::from(ask(checker, *call, &clause)?));
    }
    Ok((count, checker.is_refuted()))
}

#[test]
fn each_step_is_taken_or_refused_as_it_should_be(rt: HostRuntime) -> Result<(), AllocError> {
    let mut checker = Checker::new(rt.alloc(), 6)?;
    assert!(rt; taken(rt.alloc(), &mut checker)? == (STEPS.len(), true));
    Ok(())
}
