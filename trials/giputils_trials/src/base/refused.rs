//! Work with each of its requests for memory refused in turn.

use crate::base::hashed::GROWTH;
use crate::base::{hashed, indexes, lists, statistics};
use giputils_refusing::{Refusing, TurnFault, refuse_each, refuse_from_each};
use std::alloc::Global;

// Work that asks for memory.
enum Work {
    Listed(lists::Work),
    Hashed(hashed::Work),
    Indexed(indexes::Work),
    Averaged,
}

// Whether the work was served.
fn is_served(work: &Work, memory: &Refusing) -> bool {
    match work {
        Work::Listed(work) => lists::is_served(work, memory),
        Work::Hashed(work) => hashed::is_served(work, memory),
        Work::Indexed(work) => indexes::is_served(work, memory),
        Work::Averaged => statistics::is_made(memory),
    }
}

// How many runs of the work were refused memory.
fn refused(alloc: Global, work: &Work) -> Result<u64, TurnFault> {
    refuse_each(alloc, |memory| is_served(work, memory))
}

#[test]
fn each_request_is_refused_in_turn(rt: HostRuntime) {
    for (name, work, requests) in &[
        ("Gvec::from_array", Work::Listed(lists::Work::FromArray), 1),
        ("Gvec::reserve", Work::Listed(lists::Work::Reserve), 2),
        ("Gvec::clone", Work::Listed(lists::Work::Clone), 2),
        ("Gvec::new_rand", Work::Listed(lists::Work::NewRand), 1),
        ("Grc::new", Work::Listed(lists::Work::Share), 1),
        (
            "GHashSet::insert",
            Work::Hashed(hashed::Work::InsertMember),
            GROWTH,
        ),
        (
            "GHashMap::insert",
            Work::Hashed(hashed::Work::InsertValue),
            GROWTH,
        ),
        (
            "GHashSet::clone",
            Work::Hashed(hashed::Work::CloneSet),
            2 * GROWTH,
        ),
        (
            "GHashMap::clone",
            Work::Hashed(hashed::Work::CloneMap),
            2 * GROWTH,
        ),
        ("MovingAverage::with_room", Work::Averaged, 1),
    ] {
        assert!(rt; refused(rt.alloc(), work) == Ok(*requests), "{name}");
    }
}

// How many requests a collection and a run make is open: the map of a collection may grow more than once.
#[test]
fn each_request_of_an_allocator_is_refused_in_turn(rt: HostRuntime) {
    for (name, work, least) in &[
        ("alloc", Work::Indexed(indexes::Work::Alloc), 1),
        ("gc", Work::Indexed(indexes::Work::Gc), 2),
        ("gc_table", Work::Indexed(indexes::Work::GcTable), 2),
        ("reserve", Work::Indexed(indexes::Work::Reserve), 2),
        ("galloc_run", Work::Indexed(indexes::Work::Run), 4),
    ] {
        let outcome = refused(rt.alloc(), work);
        assert!(rt; outcome.unwrap_or(0) >= *least, "{name}: {outcome:?}");
    }
}

// Collecting asks again where the room for all items is refused, so that one refusal alone can pass.
#[test]
fn each_request_to_collect_items_is_refused_with_the_later_ones(rt: HostRuntime) {
    for (name, work, requests) in &[
        ("Gvec::from_iter", Work::Listed(lists::Work::FromIter), 1),
        (
            "GHashSet::from_iter",
            Work::Hashed(hashed::Work::CollectSet),
            GROWTH,
        ),
        (
            "GHashMap::from_iter",
            Work::Hashed(hashed::Work::CollectMap),
            GROWTH,
        ),
    ] {
        let outcome = refuse_from_each(rt.alloc(), |memory| is_served(work, memory));
        assert!(rt; outcome == Ok(*requests), "{name}");
    }
}
