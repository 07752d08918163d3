//! Bounded heaps: their calls at concrete types, and that they ask for memory where they are made and nowhere else; and
//! lists of all keys.

use giputils_heap::{BinaryHeap, BoundedHeap, ByNumber, ByRank, Counting};
use giputils_refusing::{Refusing, refuse_each};
use std::alloc::{AllocError, Global};
use std::cmp::Reverse;
use std::test::Fail;

fn is_made(memory: &Refusing) -> bool {
    BoundedHeap::<u32, &Refusing>::with_bound(memory, 100).is_ok()
}

// Where the bound can't be raised, tells so only if it is as it was.
fn is_raised(memory: &Refusing) -> bool {
    let Ok(mut heap) = BoundedHeap::<u32, &Refusing>::with_bound(memory, 2) else {
        return false;
    };
    heap.raise_bound(100).is_ok() || heap.bound() != 2
}

fn two_keys(memory: &Refusing) -> Result<BinaryHeap<u32, &Refusing>, AllocError> {
    let mut heap = BinaryHeap::new(memory);
    heap.push(0, &ByNumber)?;
    heap.push_or_update(1, &ByNumber)?;
    Ok(heap)
}

// Where the list is refused, tells so only if the keys are held still.
fn is_drained(memory: &Refusing) -> bool {
    let Ok(mut heap) = two_keys(memory) else {
        return false;
    };
    heap.drain_sorted(memory, &ByNumber).is_ok() || heap.len() != 2
}

// Where memory for the keys is refused, tells so only if those of before are held still.
fn is_built(memory: &Refusing) -> bool {
    let Ok(mut heap) = two_keys(memory) else {
        return false;
    };
    heap.build(&[9, 99, 9], &ByNumber).is_ok() || heap.len() != 2 || !heap.contains(1)
}

#[test]
fn a_heap_asks_at_once_for_what_it_needs(rt: HostRuntime) {
    let alloc = rt.alloc();
    let outcomes = [
        ("with_bound", refuse_each(alloc, is_made), 2..=2),
        ("raise_bound", refuse_each(alloc, is_raised), 4..=4),
        ("drain_sorted", refuse_each(alloc, is_drained), 3..=5),
        ("build", refuse_each(alloc, is_built), 3..=6),
    ];
    for (call, outcome, wanted) in outcomes {
        let is_right = matches!(outcome, Ok(requests) if wanted.contains(&requests));
        assert!(rt; is_right, "{call}: {outcome:?}");
    }
}

// Makes each call that holds a key.
fn push(heap: &mut BoundedHeap<u32, &Refusing>, key: u32) {
    if key < heap.bound() {
        heap.push(key, &ByNumber);
        heap.push_counted(key, &mut Counting::new(&ByNumber));
        heap.push_or_update(key, &ByNumber);
        heap.push_or_update_counted(key, &mut Counting::new(&ByNumber));
    }
}

// Makes each call that repairs the place of a key.
fn repair(heap: &mut BoundedHeap<u32, &Refusing>, key: u32) {
    heap.up(key, &ByNumber);
    heap.down(key, &ByNumber);
    heap.update(key, &ByNumber);
}

fn repair_counted(heap: &mut BoundedHeap<u32, &Refusing>, key: u32) {
    heap.up_counted(key, &mut Counting::new(&ByNumber));
    heap.down_counted(key, &mut Counting::new(&ByNumber));
    heap.update_counted(key, &mut Counting::new(&ByNumber));
}

// Keeps the keys below 64, twice.
fn keep_small(heap: &mut BoundedHeap<u32, &Refusing>) {
    heap.retain(|key| *key < 64, &ByNumber);
    heap.retain_counted(|key| *key < 64, &mut Counting::new(&ByNumber));
}

// Makes the others, and answers how many keys are left.
fn call_without(heap: &mut BoundedHeap<u32, &Refusing>) -> usize {
    heap.rebuild(&ByNumber);
    heap.rebuild_counted(&mut Counting::new(&ByNumber));
    keep_small(heap);
    let _ = heap.pop(&ByNumber);
    let _ = heap.pop_counted(&mut Counting::new(&ByNumber));
    heap.remove(0, &ByNumber);
    heap.remove_counted(1, &mut Counting::new(&ByNumber));
    heap.len()
}

// Builds it twice, and answers how many keys it holds then.
fn build_of_two(heap: &mut BoundedHeap<u32, &Refusing>) -> usize {
    if heap.bound() > 9 {
        heap.build(&[9, 0, 9], &ByNumber);
        heap.build_counted(&[9, 0, 9], &mut Counting::new(&ByNumber));
    }
    heap.len()
}

#[test]
fn a_bounded_heap_takes_no_memory_once_it_is_made(rt: HostRuntime) -> Result<(), Fail> {
    let memory = Refusing::from(rt.alloc(), 3);
    let mut heap = BoundedHeap::with_bound(&memory, 64)?;
    for key in 0..66 {
        push(&mut heap, key);
        repair(&mut heap, key);
        repair_counted(&mut heap, key);
    }
    let left = call_without(&mut heap);
    let built = build_of_two(&mut heap);
    heap.clear();
    let emptied = heap.into_vec().len();
    assert!(rt; (left, built, emptied, memory.requests()) == (60, 2, 0, 2));
    Ok(())
}

// Pushes the keys of a list that are below the bound.
fn filled(alloc: Global, bound: u32, keys: &[u8]) -> Result<BoundedHeap<u8>, AllocError> {
    let mut heap = BoundedHeap::with_bound(alloc, bound)?;
    for key in keys {
        if u32::from(*key) < heap.bound() {
            heap.push(*key, &ByNumber);
        }
    }
    Ok(heap)
}

// What a look and then a pop answer, four times.
fn popped(heap: &mut BoundedHeap<u8>) -> [(Option<u8>, Option<u8>); 4] {
    let mut answers = [(None, None); 4];
    for answer in &mut answers {
        *answer = (heap.peek(), heap.pop(&ByNumber));
    }
    answers
}

#[test]
fn a_bounded_heap_holds_every_key_below_its_bound(rt: HostRuntime) -> Result<(), Fail> {
    let mut heap = filled(rt.alloc(), 3, &[2, 3, 0, 1, 2])?;
    let held = heap.len();
    let answers = popped(&mut heap);
    let wanted = [
        (Some(2), Some(2)),
        (Some(1), Some(1)),
        (Some(0), Some(0)),
        (None, None),
    ];
    assert!(rt; (held, answers) == (3, wanted));
    Ok(())
}

// The keys of a heap whose bound was raised for one of them, and whether none is left.
fn raised(alloc: Global) -> Result<(Vec<u8>, bool), AllocError> {
    let mut heap = filled(alloc, 2, &[0, 1])?;
    heap.raise_bound(5)?;
    if 4 < heap.bound() {
        heap.push(4, &ByNumber);
    }
    Ok((heap.drain_sorted(alloc, &ByNumber)?, heap.is_empty()))
}

#[test]
fn a_raised_bound_leaves_the_keys(rt: HostRuntime) -> Result<(), Fail> {
    let (keys, is_empty) = raised(rt.alloc())?;
    assert!(rt; (keys.as_slice(), is_empty) == ([4, 1, 0].as_slice(), true));
    Ok(())
}

// The ranks of 0 and 1 have changed places.
fn repaired(alloc: Global) -> Result<Vec<u8>, AllocError> {
    let mut heap = filled(alloc, 4, &[0, 1, 2, 3])?;
    let changed = ByRank(&[8, 7, 2, 3]);
    heap.up(0, &changed);
    heap.up(1, &changed);
    if heap.remove(3, &changed) && heap.bound() == 4 {
        heap.push_or_update(0, &changed);
        heap.push_or_update(3, &changed);
    }
    heap.drain_sorted(alloc, &changed)
}

#[test]
fn a_bounded_heap_repairs_changed_ranks(rt: HostRuntime) -> Result<(), Fail> {
    let keys = repaired(rt.alloc())?;
    assert!(rt; keys.as_slice() == [0, 1, 3, 2].as_slice());
    Ok(())
}

// Built anew by number, and rebuilt the other way round.
fn rebuilt(alloc: Global) -> Result<Vec<u8>, AllocError> {
    let mut heap = filled(alloc, 4, &[0, 1, 2, 3])?;
    if heap.bound() == 4 {
        heap.build(&[1, 3, 1, 2, 0], &ByNumber);
    }
    heap.rebuild(&Reverse(ByNumber));
    heap.drain_sorted(alloc, &Reverse(ByNumber))
}

#[test]
fn any_state_of_a_bounded_heap_can_be_rebuilt(rt: HostRuntime) -> Result<(), Fail> {
    let keys = rebuilt(rt.alloc())?;
    assert!(rt; keys.as_slice() == [0, 1, 2, 3].as_slice());
    Ok(())
}

// What is left of the keys from 0 to 8 where multiples of 3 are kept: how many keys, whether 3 and 4 are held, and all
// of them in order.
fn retained(alloc: Global) -> Result<(usize, bool, bool, Vec<u8>), AllocError> {
    let mut heap = filled(alloc, 9, &[4, 1, 3, 0, 8, 2, 6, 7, 5])?;
    heap.retain(|key| *key % 3 == 0, &Reverse(ByNumber));
    let (len, three, four) = (heap.len(), heap.contains(3), heap.contains(4));
    Ok((
        len,
        three,
        four,
        heap.drain_sorted(alloc, &Reverse(ByNumber))?,
    ))
}

#[test]
fn a_bounded_heap_keeps_what_is_told(rt: HostRuntime) -> Result<(), Fail> {
    let (len, three, four, keys) = retained(rt.alloc())?;
    assert!(rt; (len, three, four) == (3, true, false));
    assert!(rt; keys.as_slice() == [0, 3, 6].as_slice());
    Ok(())
}

#[test]
fn a_bounded_heap_becomes_the_vector_of_its_keys(rt: HostRuntime) -> Result<(), Fail> {
    let mut keys = filled(rt.alloc(), 9, &[4, 1, 3])?.into_vec();
    keys.sort_unstable();
    assert!(rt; keys.as_slice() == [1, 3, 4].as_slice());
    Ok(())
}
