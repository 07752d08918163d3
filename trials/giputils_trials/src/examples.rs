//! The examples of the README, and of what else `giputils` names.
//!
//! Here one function owns what an example is about and lends it to another, which is proved much faster than one
//! function that owns it and can end early.

use giputils::OptionU8;
use giputils::allocator::Gallocator;
use giputils::bitvec::BitVec;
use giputils::decimal::{Decimal, rounded};
use giputils::grc::Grc;
use giputils::gvec::Gvec;
use giputils::hash::GHashMap;
use giputils::heap::{BinaryHeap, BoundedHeap, ByNumber, ByRank, PriorityQueue};
use giputils::logger::IntervalLogger;
use giputils::statistic::Average;
use log::Level;
use log::sink::Memory;
use std::process::Abort;
use std::test::Fail;
use std::time::Duration;

#[test]
fn a_heap(rt: HostRuntime) -> Result<(), Fail> {
    let mut heap: BinaryHeap<u8> = BinaryHeap::new(rt.alloc());
    change_ranks(&rt, &mut heap)
}

fn change_ranks(rt: &impl Abort, heap: &mut BinaryHeap<u8>) -> Result<(), Fail> {
    let mut ranks = [5, 3, 4];
    for key in [0, 1, 2] {
        heap.push(key, &ByRank(&ranks))?;
    }
    ranks[0] = 1;
    heap.update(0, &ByRank(&ranks));
    assert!(rt; heap.pop(&ByRank(&ranks)) == Some(2));
    heap.push(2, &ByRank(&ranks))?;
    ranks = [7, 9, 2];
    heap.rebuild(&ByRank(&ranks));
    assert!(rt; heap.peek() == Some(1));
    assert!(rt; heap.remove(1, &ByRank(&ranks)));
    assert!(rt; !heap.contains(1));
    Ok(())
}

#[test]
fn a_queue(rt: HostRuntime) -> Result<(), Fail> {
    let mut queue: PriorityQueue<u8, u32> = PriorityQueue::new(rt.alloc())?;
    change_priorities(&rt, &mut queue)
}

fn change_priorities(rt: &impl Abort, queue: &mut PriorityQueue<u8, u32>) -> Result<(), Fail> {
    queue.push(0, 5)?;
    queue.push(2, 4)?;
    queue.change_priority(0, 1);
    assert!(rt; queue.peek() == Some((2, 4)));
    assert!(rt; queue.push(0, 9)? == Some(1));
    assert!(rt; queue.pop() == Some((0, 9)));
    assert!(rt; queue.remove(2) == Some(4));
    assert!(rt; queue.is_empty());
    Ok(())
}

#[test]
fn a_bounded_heap(rt: HostRuntime) -> Result<(), Fail> {
    let mut queue: BoundedHeap<u8> = BoundedHeap::with_bound(rt.alloc(), 3)?;
    queue.build(&[0, 1, 2], &ByNumber);
    assert!(rt; queue.pop(&ByNumber) == Some(2));
    queue.push(2, &ByNumber);
    assert!(rt; queue.len() == 3);
    Ok(())
}

#[test]
fn a_vector(rt: HostRuntime) -> Result<(), Fail> {
    let mut g = Gvec::from_array(rt.alloc(), [1u8, 2, 3, 4])?;
    g.swap(0, 3);
    g.swap_remove(1);
    g.reserve(5)?;
    assert!(rt; g.as_slice() == [4, 1, 3, 0, 0].as_slice());
    Ok(())
}

#[test]
fn a_vector_of_bits(rt: HostRuntime) -> Result<(), Fail> {
    let mut bits = BitVec::from(rt.alloc(), [true, false, true])?;
    bits.push_word(u64::MAX)?;
    assert!(rt; bits.words() == [18446744073709551613, 7].as_slice());
    assert!(rt; bits.len() == 67);
    Ok(())
}

#[test]
fn logic_of_bits(rt: HostRuntime) -> Result<(), Fail> {
    let mut bits = BitVec::from(rt.alloc(), [true, false, true, true, false])?;
    let mask = BitVec::from(rt.alloc(), [true, true, true, false, false])?;
    assert!(rt; bits.len() == mask.len());
    bits &= &mask;
    invert(&rt, &bits)
}

fn invert(rt: &(impl Abort + Alloc), bits: &BitVec) -> Result<(), Fail> {
    assert!(rt; format!(in rt.alloc(); "{bits}")?.as_str() == "00101");
    let inverted = bits.not()?;
    assert!(rt; format!(in rt.alloc(); "{}", inverted.lower_hex())?.as_str() == "0x1a");
    Ok(())
}

#[test]
fn option_numbers(rt: HostRuntime) {
    let mut o = OptionU8::some(254);
    *o = 255;
    assert!(rt; o.is_none());
}

#[test]
fn a_hashed_map(rt: HostRuntime) -> Result<(), Fail> {
    let map: GHashMap<u8, u8> = [(1, 5), (2, 6), (1, 7)].into_iter().collect(rt.alloc())?;
    assert!(rt; map.get(&1).copied() == Some(7));
    assert!(rt; map.get(&2).copied() == Some(6));
    Ok(())
}

#[test]
fn a_shared_value(rt: HostRuntime) -> Result<(), Fail> {
    let eight = Grc::new(rt.alloc(), 8u8)?;
    let other = eight.clone()?;
    assert!(rt; *other == *eight);
    Ok(())
}

#[test]
fn an_allocator_of_indexes(rt: HostRuntime) -> Result<(), Fail> {
    let mut values = Gallocator::new(rt.alloc());
    collect(&rt, &mut values)
}

fn collect(rt: &impl Abort, values: &mut Gallocator<char>) -> Result<(), Fail> {
    assert!(rt; values.alloc('a') == Ok(0));
    assert!(rt; values.alloc('b') == Ok(1));
    values.dealloc(0);
    let moved = values.gc()?;
    assert!(rt; moved.get(&1).copied() == Some(0));
    assert!(rt; values.len() == 1);
    Ok(())
}

#[test]
fn an_average(rt: HostRuntime) -> Result<(), Fail> {
    let mut average = Average::default();
    average += 1;
    average += 1;
    average += 0;
    assert!(rt; format!(in rt.alloc(); "{average:?}")?.as_str() == "0.666667");
    Ok(())
}

#[test]
fn an_interval_logger(rt: HostRuntime) {
    let sink = Memory::new(rt.alloc());
    let mut logger = IntervalLogger::with_default(Duration::ZERO);
    assert!(rt; !logger.log(&sink, Duration::from_secs(9), Level::Info, &"at work"));
    assert!(rt; logger.log(&sink, Duration::from_secs(10), Level::Info, &"at work"));
    assert!(rt; !logger.log(&sink, Duration::from_secs(19), Level::Info, &"at work"));
    assert!(rt; sink.into_lines().len() == 1);
}

#[test]
fn a_decimal(rt: HostRuntime) -> Result<(), Fail> {
    let third = Decimal {
        numerator: 1,
        denominator: 3,
        places: 2,
    };
    assert!(rt; format!(in rt.alloc(); "{third}")?.as_str() == "0.33");
    assert!(rt; rounded(5, 2) == 2);
    Ok(())
}
