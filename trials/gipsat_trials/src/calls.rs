//! Calls of a search that has not begun, and of one that finds a model.

use gipsat_cnf::Literal;
use gipsat_kernel::Kernel;
use gipsat_search::{Query, Search, Turn};
use gipsat_uses::pages::searched::find_model;
use std::alloc::{AllocError, Global};

// Adds `a or b` and `not a or b`, and finds a model. Whether b is true in it, and where the search has ended.
fn finds_b(alloc: Global, kernel: &mut Kernel, search: &mut Search) -> Result<bool, AllocError> {
    let (a, b) = (Literal::new(0, true), Literal::new(1, true));
    kernel.add_clause(&[a, b])?;
    kernel.add_clause(&[a.negated(), b])?;
    let in_model = match find_model(alloc, kernel, search)? {
        Some(model) => model.get(1) == Some(&true),
        None => false,
    };
    Ok(in_model && search.value(1) == Some(true) && !search.reopen(kernel))
}

#[test]
fn the_example_finds_a_model(rt: HostRuntime) {
    let alloc = rt.alloc();
    let found = finds_b(alloc, &mut Kernel::new(alloc), &mut Search::new(alloc));
    assert!(rt; found == Ok(true));
}

#[test]
fn before_the_first_call_nothing_is_found(rt: HostRuntime) {
    let mut kernel = Kernel::new(rt.alloc());
    let mut search = Search::new(rt.alloc());
    let turn = search.turn(&mut kernel, Query::all());
    assert!(rt; matches!(turn, Ok(Turn::Spent)));
    assert!(rt; search.value(0).is_none() && !search.reopen(&kernel));
}
