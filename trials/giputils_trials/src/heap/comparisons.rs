//! The heap beside the plain one.

use crate::heap::list_heap::ListHeap;
use giputils_heap::{BinaryHeap, BinaryHeapCmp, ByNumber, ByRank};
use std::alloc::{AllocError, Global};
use std::cmp::Reverse;
use std::test::Fail;

// The next number of a list that is drawn from a seed.
fn after(seed: u32) -> u32 {
    seed.wrapping_mul(1_664_525).wrapping_add(1_013_904_223)
}

// Makes a drawn call on both heaps: a push of a key below 16 mostly, a pop, or a `clear` now and then. Tells whether
// both replied the same, and hold as many keys.
fn reply_alike<C: BinaryHeapCmp<u32>>(
    heap: &mut BinaryHeap<u32>,
    plain: &mut ListHeap<u32>,
    drawn: u32,
    cmp: &C,
) -> Result<bool, AllocError> {
    let key = (drawn >> 28) % 16;
    let alike = match (drawn >> 20) % 16 {
        0 => {
            heap.clear();
            plain.clear();
            true
        }
        1..=6 => heap.pop(cmp) == plain.pop(cmp),
        _ => {
            heap.push(key, cmp)?;
            plain.push(key, cmp)?;
            true
        }
    };
    Ok(alike && heap.len() == plain.len())
}

// Makes a list of such calls, drawn from `seed`.
fn all_reply_alike<C: BinaryHeapCmp<u32>>(
    alloc: Global,
    mut seed: u32,
    cmp: &C,
) -> Result<bool, AllocError> {
    let mut heap = BinaryHeap::new(alloc);
    let mut plain = ListHeap::new(alloc);
    for _ in 0..40 {
        seed = after(seed);
        if !reply_alike(&mut heap, &mut plain, seed, cmp)? {
            return Ok(false);
        }
    }
    Ok(true)
}

// Makes a drawn call on both heaps, by ranks that change for one key at a time, which is updated then, be it held or
// not.
fn reply_alike_by_rank(
    heap: &mut BinaryHeap<u32>,
    plain: &mut ListHeap<u32>,
    drawn: u32,
    ranks: &mut [u32; 16],
) -> Result<bool, AllocError> {
    let key = (drawn >> 28) % 16;
    let alike = match (drawn >> 20) % 8 {
        0 | 1 => heap.pop(&ByRank(ranks)) == plain.pop(&ByRank(ranks)),
        2..=4 => {
            ranks[key as usize] = (drawn >> 12) % 8;
            heap.update(key, &ByRank(ranks));
            true
        }
        _ => {
            heap.push(key, &ByRank(ranks))?;
            plain.push(key, &ByRank(ranks))?;
            true
        }
    };
    Ok(alike && heap.len() == plain.len())
}

// Makes a list of such calls, drawn from `seed`.
fn all_reply_alike_by_rank(alloc: Global, mut seed: u32) -> Result<bool, AllocError> {
    let mut ranks = [0; 16];
    let mut heap = BinaryHeap::new(alloc);
    let mut plain = ListHeap::new(alloc);
    for _ in 0..40 {
        seed = after(seed);
        if !reply_alike_by_rank(&mut heap, &mut plain, seed, &mut ranks)? {
            return Ok(false);
        }
    }
    Ok(true)
}

#[test]
fn replies_as_the_plain_heap_under_orders_without_ties(rt: HostRuntime) -> Result<(), Fail> {
    for seed in 0..500 {
        assert!(rt;
            all_reply_alike(rt.alloc(), seed, &ByNumber)?,
            "by number, seed {seed}"
        );
        assert!(rt;
            all_reply_alike(rt.alloc(), seed, &Reverse(ByNumber))?,
            "reversed, seed {seed}"
        );
        assert!(rt;
            all_reply_alike_by_rank(rt.alloc(), seed)?,
            "by rank, seed {seed}"
        );
    }
    Ok(())
}
