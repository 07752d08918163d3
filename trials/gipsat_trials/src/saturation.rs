//! A search of a few lines on the kernel, with no contract: it resolves until the empty clause comes, or nothing new.

use crate::numbers::add_all;
use gipsat_cnf::{Cnf, Literal};
use gipsat_kernel::Kernel;
use std::alloc::{AllocError, Global};

// The clauses of at most two literals over two variables.
const CLAUSES: [&[i32]; 8] = [
    &[1, 0],
    &[-1, 0],
    &[2, 0],
    &[-2, 0],
    &[1, 2, 0],
    &[1, -2, 0],
    &[-1, 2, 0],
    &[-1, -2, 0],
];

// No formula needs more clauses.
const MOST: usize = 40;

// A literal of a clause whose negation another one has.
fn pivot(kernel: &Kernel, first: usize, second: usize) -> Option<Literal> {
    for l in kernel.clause(first)? {
        for m in kernel.clause(second)? {
            if m.code() == l.negated().code() {
                return Some(*l);
            }
        }
    }
    None
}

// Whether an older clause says at least as much as the last one.
fn is_known(kernel: &mut Kernel, last: usize) -> bool {
    for id in 0..last {
        if kernel.subsume(last, id) {
            return true;
        }
    }
    false
}

// Resolves two clauses, if that is new. Whether it gives the empty clause.
fn resolve(
    alloc: Global,
    kernel: &mut Kernel,
    first: usize,
    second: usize,
) -> Result<bool, AllocError> {
    let Some(l) = pivot(kernel, first, second) else {
        return Ok(false);
    };
    kernel.begin(second)?;
    kernel.resolve(l, first)?;
    let Some(id) = kernel.conclude()? else {
        return Ok(false);
    };
    if kernel.is_refuted(id) {
        return Ok(true);
    }
    if is_known(kernel, id) {
        let mut stays = Vec::new(alloc);
        stays.resize(kernel.len(), true)?;
        if let Some(flag) = stays.last_mut() {
            *flag = false;
        }
        kernel.collect(alloc, &mut stays)?;
    }
    Ok(false)
}

// Whether the empty clause can be derived.
fn is_refuted(alloc: Global, kernel: &mut Kernel) -> Result<bool, AllocError> {
    for first in 0..MOST {
        for second in 0..first {
            if resolve(alloc, kernel, first, second)? || resolve(alloc, kernel, second, first)? {
                return Ok(true);
            }
        }
    }
    Ok(false)
}

// The formula of the clauses whose bits are set.
fn formula(alloc: Global, choice: usize) -> Result<Cnf, AllocError> {
    let mut formula = Cnf::new(alloc);
    let mut rest = choice;
    for clause in CLAUSES {
        if rest % 2 == 1 {
            add_all(alloc, &mut formula, clause)?;
        }
        rest /= 2;
    }
    Ok(formula)
}

// Whether resolution refutes a formula exactly if no values satisfy it.
fn is_decided(alloc: Global, choice: usize) -> Result<bool, AllocError> {
    let mut kernel = Kernel::over(alloc, formula(alloc, choice)?)?;
    is_refuted_rightly(alloc, &mut kernel)
}

fn is_refuted_rightly(alloc: Global, kernel: &mut Kernel) -> Result<bool, AllocError> {
    let refuted = is_refuted(alloc, kernel)?;
    Ok(refuted == kernel.find_model(alloc, &[])?.is_none())
}

#[test]
fn resolution_refutes_what_no_values_satisfy(rt: HostRuntime) -> Result<(), AllocError> {
    for choice in 0..256 {
        assert!(rt; is_decided(rt.alloc(), choice)?);
    }
    Ok(())
}
