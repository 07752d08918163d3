//! What is refused, counted and passed on, and runs that are refused in turn.

use giputils_refusing::{MOST_RUNS, Refused, Refusing, TurnFault, refuse_each, refuse_from_each};
use linked_list_allocator::LocalHeap;
use std::alloc::{Allocator, Global};
use std::collections::HashMap;
use std::process::Abort;
use std::test::Fail;

// Which of five requests in a row are refused.
fn five_requests<B: Allocator>(memory: &Refusing<B>) -> [bool; 5] {
    let mut refused = [false; 5];
    for each in &mut refused {
        *each = Box::new(memory, 0u64).is_err();
    }
    refused
}

// An allocator that refuses these requests.
fn told(alloc: Global, refused: Refused) -> Refusing {
    match refused {
        Refused::Never => Refusing::none(alloc),
        Refused::Nth(n) => Refusing::nth(alloc, n),
        Refused::From(n) => Refusing::from(alloc, n),
    }
}

#[test]
fn refuses_what_it_was_told_to(rt: HostRuntime) {
    for &(refused, wanted) in &[
        (Refused::Never, [false; 5]),
        (Refused::Nth(1), [true, false, false, false, false]),
        (Refused::Nth(3), [false, false, true, false, false]),
        (Refused::Nth(0), [false; 5]),
        (Refused::From(3), [false, false, true, true, true]),
        (Refused::From(1), [true; 5]),
    ] {
        let memory = told(rt.alloc(), refused);
        assert!(rt; five_requests(&memory) == wanted, "{refused:?}");
        assert!(rt; memory.requests() == 5);
        assert!(rt; memory.largest() == 8);
    }
}

#[test]
fn passes_requests_on_to_a_budget(rt: HostRuntime) -> Result<(), Fail> {
    let budget = LocalHeap::new(rt.alloc(), 1024)?;
    spend(&rt, &budget, &Refusing::nth(&budget, 2))
}

fn spend(rt: &impl Abort, budget: &LocalHeap, memory: &Refusing<&LocalHeap>) -> Result<(), Fail> {
    assert!(rt; five_requests(memory) == [false, true, false, false, false]);
    let held = Box::new(memory, [0u8; 100])?;
    assert!(rt; budget.used() >= 100);
    let over_budget: Result<Vec<u8, _>, _> = Vec::with_capacity(memory, 2000);
    assert!(rt; over_budget.is_err());
    assert!(rt; memory.requests() == 7);
    assert!(rt; memory.largest() == 2000);
    drop(held);
    assert!(rt; budget.used() == 0);
    Ok(())
}

#[test]
fn counts_the_requests_of_a_vector(rt: HostRuntime) {
    let memory = Refusing::nth(rt.alloc(), 2);
    let mut v = Vec::<u32, &Refusing>::new(&memory);
    assert!(rt; memory.requests() == 0);
    assert!(rt; memory.largest() == 0);
    assert!(rt; v.reserve(4).is_ok());
    assert!(rt; memory.requests() == 1);
    assert!(rt; memory.largest() == 16);
    assert!(rt; v.extend_from_slice(&[5, 6, 7, 8]).is_ok());
    assert!(rt; v.push(9).is_err());
    assert!(rt; memory.requests() == 2);
    assert!(rt; v.push(9).is_ok());
    assert!(rt; memory.requests() == 3);
    assert!(rt; v.as_slice() == [5, 6, 7, 8, 9].as_slice());
}

#[test]
fn tells_the_size_of_a_refused_request(rt: HostRuntime) {
    let memory = Refusing::from(rt.alloc(), 1);
    let all: Result<Vec<u64, _>, _> = Vec::with_capacity(&memory, 1 << 58);
    assert!(rt; all.is_err());
    assert!(rt; memory.largest() == 1 << 61);
}

// What a test that refuses one request after another relies on.
#[test]
fn a_map_grows_in_four_requests(rt: HostRuntime) -> Result<(), Fail> {
    let memory = Refusing::none(rt.alloc());
    let mut map = HashMap::new(&memory);
    assert!(rt; memory.requests() == 0);
    map.insert(1u32, 2u32)?;
    assert!(rt; memory.requests() == 4);
    Ok(())
}

// Whether so many requests in a row are served. It ends at the first that is not.
fn are_served(memory: &Refusing, requests: u64) -> bool {
    for _ in 0..requests {
        if Box::new(memory, 0u64).is_err() {
            return false;
        }
    }
    true
}

// What a run of so many requests says: what it is told to say, or else whether they were served.
fn says(memory: &Refusing, requests: u64, told: Option<bool>) -> bool {
    let are_served = are_served(memory, requests);
    told.unwrap_or(are_served)
}

#[test]
fn refuses_each_request_in_turn_until_a_run_is_served(rt: HostRuntime) {
    let alloc = rt.alloc();
    for &(requests, told, wanted) in &[
        (0, None, Ok(0)),
        (1, None, Ok(1)),
        (5, None, Ok(5)),
        (MOST_RUNS - 1, None, Ok(MOST_RUNS - 1)),
        (MOST_RUNS, None, Err(TurnFault::Endless)),
        (3, Some(true), Err(TurnFault::Hidden(1))),
        (3, Some(false), Err(TurnFault::Unrefused(4))),
    ] {
        let outcome = refuse_each(alloc, |memory| says(memory, requests, told));
        assert!(rt; outcome == wanted);
    }
}

#[test]
fn refuses_each_request_and_the_later_ones_until_a_run_is_served(rt: HostRuntime) {
    let alloc = rt.alloc();
    for &requests in &[0, 1, 5, MOST_RUNS - 1] {
        let outcome = refuse_from_each(alloc, |memory| are_served(memory, requests));
        assert!(rt; outcome == Ok(requests));
    }
}
