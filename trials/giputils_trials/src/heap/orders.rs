//! The heap through every order of some calls, under comparers that are no order.

use crate::heap::comparers::{Circle, Constant};
use crate::heap::list_heap::ListHeap;
use giputils_heap::{BinaryHeap, BinaryHeapCmp, Counting};
use std::alloc::{AllocError, Global};
use std::test::Fail;

// How many calls an order has.
const LENGTH: u32 = 5;

// The calls of an order are its digits to this base: a push of a key below three, a pop, an update, a way up or down or
// a removal of key 1, a rebuild, or a clear. The comparers are alike at all three keys, so it is enough to move one of
// them.
const CALLS: u32 = 10;

// The key that is moved.
const MOVED: u32 = 1;

// The most comparisons of a call, in the number of keys that are held before it.
fn most_comparisons(call: u32, held: usize) -> u64 {
    let levels = u64::from(held.max(1).ilog2());
    match call {
        0..=2 => u64::from((held + 1).ilog2()),
        3..=5 | 8 => 2 * levels,
        6 => levels,
        7 => 2 * held as u64,
        _ => 0,
    }
}

// Makes one call on the heap, and keeps the held keys beside it. Tells whether the reply was right.
fn makes_call<C: BinaryHeapCmp<u32>>(
    heap: &mut BinaryHeap<u32>,
    held: &mut ListHeap<u32>,
    call: u32,
    counter: &mut Counting<'_, C>,
) -> Result<bool, AllocError> {
    match call {
        0..=2 => {
            heap.push_counted(call, counter)?;
            held.push(call, &Circle)?;
        }
        3 => {
            return Ok(match heap.pop_counted(counter) {
                Some(key) => held.remove(key),
                None => held.is_empty(),
            });
        }
        4 => heap.update_counted(MOVED, counter),
        5 => heap.down_counted(MOVED, counter),
        6 => heap.up_counted(MOVED, counter),
        7 => heap.rebuild_counted(counter),
        8 => return Ok(heap.remove_counted(MOVED, counter) == held.remove(MOVED)),
        _ => {
            heap.clear();
            held.clear();
        }
    }
    Ok(true)
}

// Whether both hold the same keys.
fn holds_alike(heap: &BinaryHeap<u32>, held: &ListHeap<u32>) -> bool {
    for key in heap.elements() {
        if !held.holds(*key) {
            return false;
        }
    }
    heap.len() == held.len()
}

// Makes one call. Tells whether the reply was right, the heap holds the right keys then, and the call asked no oftener
// than it may.
fn is_well_made<C: BinaryHeapCmp<u32>>(
    heap: &mut BinaryHeap<u32>,
    held: &mut ListHeap<u32>,
    call: u32,
    cmp: &C,
) -> Result<bool, AllocError> {
    let most = most_comparisons(call, heap.len());
    let mut counter = Counting::new(cmp);
    let right = makes_call(heap, held, call, &mut counter)?;
    Ok(right && counter.count() <= most && holds_alike(heap, held))
}

// Makes the calls of an order. Tells whether each of them was well made.
fn runs_well<C: BinaryHeapCmp<u32>>(
    alloc: Global,
    mut order: u32,
    cmp: &C,
) -> Result<bool, AllocError> {
    let mut heap = BinaryHeap::new(alloc);
    let mut held = ListHeap::new(alloc);
    for _ in 0..LENGTH {
        if !is_well_made(&mut heap, &mut held, order % CALLS, cmp)? {
            return Ok(false);
        }
        order /= CALLS;
    }
    Ok(true)
}

#[test]
fn loses_no_key_in_any_order_of_calls_under_comparers_without_laws(
    rt: HostRuntime,
) -> Result<(), Fail> {
    let alloc = rt.alloc();
    for order in 0..CALLS.pow(LENGTH) {
        for &constant in &[true, false] {
            assert!(rt;
                runs_well(alloc, order, &Constant(constant))?,
                "always {constant}, order {order}"
            );
        }
        assert!(rt; runs_well(alloc, order, &Circle)?, "circle, order {order}");
    }
    Ok(())
}
