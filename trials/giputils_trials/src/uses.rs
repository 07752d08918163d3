//! Each use of a container once.

use giputils::allocator::Gallocator;
use giputils::bitvec::{BitVec, BitVecError};
use giputils::gvec::Gvec;
use giputils::heap::{BinaryHeap, ByNumber};
use giputils::statistic::Average;
use giputils_uses::activity::Activity;
use giputils_uses::compaction::compact;
use giputils_uses::counts::counted;
use giputils_uses::drain::drain;
use giputils_uses::last::last_of;
use giputils_uses::learned::keep;
use giputils_uses::paths::{distances, ends_at_nodes};
use giputils_uses::reachable::reachable;
use giputils_uses::report::observe;
use giputils_uses::rows::join;
use giputils_uses::sieve::primes_below;
use giputils_uses::simulate::half_add;
use giputils_uses::small_set::SmallSet;
use giputils_uses::sorting::sorted;
use giputils_uses::states::visited;
use giputils_uses::timers::Timers;
use std::alloc::{AllocError, Global};

#[test]
fn lists_are_made(rt: HostRuntime) {
    let alloc = rt.alloc();
    assert!(rt; sorted(alloc, [30, 10, 40, 10].as_slice()).is_ok());
    assert!(rt; primes_below(alloc, 30).is_ok());
    assert!(rt; last_of(alloc, [(1, 5), (1, 7)].as_slice(), 1).is_ok());
}

// How many numbers have a count.
fn entries(alloc: Global, items: &[u32]) -> Result<usize, AllocError> {
    let counts = counted(alloc, items)?;
    Ok(counts.len())
}

#[test]
fn only_numbers_of_the_list_have_a_count(rt: HostRuntime) {
    assert!(rt; entries(rt.alloc(), &[5, 3, 5, 0, 5]) == Ok(3));
}

#[test]
fn numbers_are_added_to_an_average(rt: HostRuntime) {
    let mut average = Average::default();
    for &number in &[1, 1, 0] {
        assert!(rt; observe(&mut average, number));
    }
}

#[test]
fn a_heap_is_drained(rt: HostRuntime) {
    let mut heap: BinaryHeap<u8> = BinaryHeap::new(rt.alloc());
    assert!(rt; heap.push(3, &ByNumber).is_ok());
    assert!(rt; drain(rt.alloc(), &mut heap, &ByNumber).is_ok());
}

fn put_back(alloc: Global) -> Result<(), AllocError> {
    let mut activity = Activity::new(alloc, 4)?;
    activity.put_back(1);
    Ok(())
}

#[test]
fn queues_are_made(rt: HostRuntime) {
    assert!(rt; put_back(rt.alloc()).is_ok());
    assert!(rt; Timers::new(rt.alloc(), 3).is_ok());
}

// The distances in a graph, if each edge ends at a node.
fn has_distances(alloc: Global, graph: &[Gvec<(u16, u32)>]) -> Result<bool, AllocError> {
    if graph.is_empty() || !ends_at_nodes(graph) {
        return Ok(false);
    }
    distances(alloc, graph, 0)?;
    Ok(true)
}

#[test]
fn distances_are_found(rt: HostRuntime) {
    let graph = [Gvec::new(rt.alloc())];
    assert!(rt; has_distances(rt.alloc(), graph.as_slice()) == Ok(true));
}

fn compacted(alloc: Global) -> Result<(), AllocError> {
    let mut clauses = Gallocator::<char>::new(alloc);
    compact(&mut clauses, &mut Vec::new(alloc))
}

fn kept(alloc: Global) -> Result<(), AllocError> {
    let mut learned = Gallocator::<Option<char>>::new(alloc);
    keep(&mut learned, 0, &mut Vec::new(alloc))
}

#[test]
fn indexes_are_renamed(rt: HostRuntime) {
    assert!(rt; compacted(rt.alloc()).is_ok() && kept(rt.alloc()).is_ok());
}

fn members(alloc: Global) -> Result<(), BitVecError> {
    let mut set = SmallSet::new(alloc, 100)?;
    set.members(alloc)?;
    set.drain(alloc)?;
    Ok(())
}

fn added(alloc: Global) -> Result<(), BitVecError> {
    half_add(&mut BitVec::new(alloc), &BitVec::new(alloc))?;
    Ok(())
}

fn reached(alloc: Global) -> Result<(), BitVecError> {
    reachable(alloc, BitVec::zero(alloc, 3)?, &[], 8)?;
    Ok(())
}

#[test]
fn bits_are_used(rt: HostRuntime) {
    let alloc = rt.alloc();
    assert!(rt; members(alloc).is_ok() && added(alloc).is_ok() && reached(alloc).is_ok());
    assert!(rt; visited(alloc, Vec::new(alloc)).is_ok());
}

// Whether the places of a row are added to another one.
fn joins(alloc: Global) -> Result<bool, BitVecError> {
    let mut rows = [
        BitVec::from_usize(alloc, 4, 0b0011)?,
        BitVec::from_usize(alloc, 4, 0b0101)?,
    ];
    Ok(join(rows.as_mut_slice(), 0, 1))
}

#[test]
fn rows_of_one_length_are_joined(rt: HostRuntime) {
    assert!(rt; joins(rt.alloc()) == Ok(true));
}
