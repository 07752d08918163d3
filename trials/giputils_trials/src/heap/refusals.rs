//! Heaps, and lists of calls of one, that are refused memory.

use crate::heap::runs::{TWO_CHANGED, TWO_TABLES, steps_of};
use giputils_heap::{BinaryHeap, ByNumber, Counting, HeapCall, HeapReply, HeapStep, heap_run};
use giputils_refusing::{Refusing, refuse_each};
use std::alloc::{AllocError, Global};
use std::test::Fail;

fn three_keys(memory: &Refusing) -> Result<BinaryHeap<u32, &Refusing>, AllocError> {
    let mut heap = BinaryHeap::new(memory);
    for &key in &[3, 9, 6] {
        heap.push(key, &ByNumber)?;
    }
    Ok(heap)
}

// The replies to pushes of 3 and 9 and to two pops; none where memory for the list of replies is refused.
fn replies_of_a_run(memory: &Refusing) -> Option<[HeapReply<u32>; 4]> {
    let mut steps = [
        HeapStep::new(HeapCall::Push(3), &ByNumber),
        HeapStep::new(HeapCall::Push(9), &ByNumber),
        HeapStep::new(HeapCall::Pop, &ByNumber),
        HeapStep::new(HeapCall::Pop, &ByNumber),
    ];
    match heap_run(memory, &mut steps).ok()?.as_slice() {
        [first, second, third, fourth] => Some([*first, *second, *third, *fourth]),
        _ => None,
    }
}

fn is_run(memory: &Refusing) -> bool {
    match replies_of_a_run(memory) {
        Some(replies) => !replies.contains(&HeapReply::Refused),
        None => false,
    }
}

// How many keys are pushed until both the keys and the table of places have grown several times.
const MANY: u32 = 100;

// Takes all keys out, and tells whether they are those below `count`, greatest first.
fn pops_all_below(heap: &mut BinaryHeap<u32, &Refusing>, count: u32) -> bool {
    let mut right = heap.len() == count as usize;
    for key in (0..count).rev() {
        right &= heap.contains(key) && heap.pop(&ByNumber) == Some(key);
    }
    right && heap.is_empty()
}

// Where a key is refused, tells so only if those before it are held, in order.
fn is_filled(memory: &Refusing) -> bool {
    let mut heap = BinaryHeap::new(memory);
    for key in 0..MANY {
        if heap.push(key, &ByNumber).is_err() {
            return heap.contains(key) || !pops_all_below(&mut heap, key);
        }
    }
    pops_all_below(&mut heap, MANY)
}

// The replies to a run whose ranks change; none where memory for the lists of steps and replies is refused.
fn replies_under_changed_ranks(memory: &Refusing) -> Option<Vec<HeapReply<u32>, &Refusing>> {
    let mut steps = steps_of(memory, TWO_TABLES, TWO_CHANGED).ok()?;
    heap_run(memory, &mut steps).ok()
}

// Whether the keys that were not refused come out by the later ranks, and then nothing.
fn pop_by_later_ranks(replies: &[HeapReply<u32>]) -> bool {
    let [pushes @ .., _, _, _, first, second, third, fourth, fifth] = replies else {
        return false;
    };
    let mut pops = [first, second, third, fourth, fifth].into_iter();
    for &key in &[3, 2, 0, 1] {
        let is_held = pushes.get(key as usize) == Some(&HeapReply::Done);
        if is_held && pops.next() != Some(&HeapReply::Popped(Some(key))) {
            return false;
        }
    }
    for reply in pops {
        if *reply != HeapReply::Popped(None) {
            return false;
        }
    }
    true
}

// Where a key is refused, tells so only if the others come out as they should.
fn is_run_under_changed_ranks(memory: &Refusing) -> bool {
    let Some(replies) = replies_under_changed_ranks(memory) else {
        return false;
    };
    replies.contains(&HeapReply::Refused) != pop_by_later_ranks(replies.as_slice())
}

// How many requests a key takes is open.
#[test]
fn each_request_of_a_heap_is_refused_in_turn(rt: HostRuntime) {
    let alloc = rt.alloc();
    let outcomes = [
        ("push", refuse_each(alloc, is_filled), 4),
        ("heap_run", refuse_each(alloc, is_run), 2),
        (
            "heap_run under changed ranks",
            refuse_each(alloc, is_run_under_changed_ranks),
            2,
        ),
    ];
    for (call, outcome, least) in outcomes {
        let is_right = matches!(outcome, Ok(requests) if requests >= least);
        assert!(rt; is_right, "{call}: {outcome:?}");
    }
}

#[test]
fn a_run_asks_for_its_list_of_replies_first(rt: HostRuntime) {
    let memory = Refusing::nth(rt.alloc(), 1);
    assert!(rt; replies_of_a_run(&memory).is_none());
    assert!(rt; memory.requests() == 1);
    let memory = Refusing::nth(rt.alloc(), 2);
    let replies = &[
        HeapReply::Refused,
        HeapReply::Done,
        HeapReply::Popped(Some(9)),
        HeapReply::Popped(None),
    ];
    assert!(rt; replies_of_a_run(&memory) == Some(*replies));
}

#[test]
fn a_key_that_was_refused_memory_is_not_held(rt: HostRuntime) -> Result<(), Fail> {
    let memory = Refusing::nth(rt.alloc(), 2);
    let greatest = u32::MAX - 1;
    let mut steps = [
        HeapStep::new(HeapCall::Push(greatest), &ByNumber),
        HeapStep::new(HeapCall::Up(greatest), &ByNumber),
        HeapStep::new(HeapCall::Len, &ByNumber),
    ];
    let replies = heap_run(&memory, &mut steps)?;
    let wanted = &[HeapReply::Refused, HeapReply::Done, HeapReply::Length(0)];
    assert!(rt; replies.as_slice() == wanted.as_slice());
    Ok(())
}

// Makes each call that repairs the place of a key.
fn repair(heap: &mut BinaryHeap<u32, &Refusing>, key: u32) {
    heap.up(key, &ByNumber);
    heap.down(key, &ByNumber);
    heap.update(key, &ByNumber);
}

fn repair_counted(heap: &mut BinaryHeap<u32, &Refusing>, key: u32) {
    heap.up_counted(key, &mut Counting::new(&ByNumber));
    heap.down_counted(key, &mut Counting::new(&ByNumber));
    heap.update_counted(key, &mut Counting::new(&ByNumber));
}

fn rebuild(heap: &mut BinaryHeap<u32, &Refusing>) {
    heap.rebuild(&ByNumber);
    heap.rebuild_counted(&mut Counting::new(&ByNumber));
}

// Keeps the keys other than 10, twice.
fn keep_others(heap: &mut BinaryHeap<u32, &Refusing>) {
    heap.retain(|key| *key != 10, &ByNumber);
    heap.retain_counted(|key| *key != 10, &mut Counting::new(&ByNumber));
}

fn push_held(heap: &mut BinaryHeap<u32, &Refusing>) -> Result<(), AllocError> {
    heap.push(6, &ByNumber)?;
    heap.push_counted(9, &mut Counting::new(&ByNumber))
}

fn found(heap: &BinaryHeap<u32, &Refusing>) -> ([bool; 3], Option<u32>, [usize; 2]) {
    let held = [heap.contains(9), heap.contains(u32::MAX), heap.is_empty()];
    (held, heap.peek(), [heap.len(), heap.elements().len()])
}

fn popped(heap: &mut BinaryHeap<u32, &Refusing>) -> [Option<u32>; 2] {
    let first = heap.pop(&ByNumber);
    [first, heap.pop_counted(&mut Counting::new(&ByNumber))]
}

fn removed(heap: &mut BinaryHeap<u32, &Refusing>) -> [bool; 2] {
    let first = heap.remove(6, &ByNumber);
    [first, heap.remove_counted(3, &mut Counting::new(&ByNumber))]
}

// Makes these calls on a heap of three keys, and clears it.
fn called_in_place(
    memory: &Refusing,
) -> Result<
    (
        ([bool; 3], Option<u32>, [usize; 2]),
        [Option<u32>; 2],
        [bool; 2],
    ),
    AllocError,
> {
    let mut heap = three_keys(memory)?;
    push_held(&mut heap)?;
    for &key in &[3, 6, 9, 10, 4_000_000_000, u32::MAX] {
        repair(&mut heap, key);
        repair_counted(&mut heap, key);
    }
    rebuild(&mut heap);
    keep_others(&mut heap);
    let seen = (found(&heap), popped(&mut heap), removed(&mut heap));
    heap.clear();
    drop(heap.into_vec());
    Ok(seen)
}

// How many requests a heap of three keys makes.
fn requests_of_three_keys(alloc: Global) -> Result<u64, AllocError> {
    let memory = Refusing::none(alloc);
    drop(three_keys(&memory)?);
    Ok(memory.requests())
}

#[test]
fn a_heap_pops_repairs_and_pushes_held_keys_in_place(rt: HostRuntime) -> Result<(), Fail> {
    let requests = requests_of_three_keys(rt.alloc())?;
    let memory = Refusing::from(rt.alloc(), requests.saturating_add(1));
    let (found, popped, removed) = called_in_place(&memory)?;
    assert!(rt; found == ([true, false, false], Some(9), [3, 3]));
    assert!(rt; popped == [Some(9), Some(6)]);
    assert!(rt; removed == [false, true]);
    assert!(rt; BinaryHeap::<u32, &Refusing>::new(&memory).is_empty());
    assert!(rt; memory.requests() == requests);
    Ok(())
}
