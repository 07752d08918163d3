//! Hashed sets and maps.

use giputils_hash::hash::{GHashMap, GHashSet};
use giputils_refusing::Refusing;
use std::alloc::AllocError;
use std::ops::{Deref, DerefMut};

// The requests of one growth of a hashed collection.
pub(crate) const GROWTH: u64 = 4;

fn is_set_collected(memory: &Refusing) -> bool {
    GHashSet::from_iter(memory, [3u32, 3]).is_ok()
}

fn is_map_collected(memory: &Refusing) -> bool {
    GHashMap::from_iter(memory, [(1u32, 5u32), (2, 6), (1, 7)]).is_ok()
}

fn is_member_put(memory: &Refusing) -> bool {
    GHashSet::new(memory).insert(3u32).is_ok()
}

fn is_value_put(memory: &Refusing) -> bool {
    GHashMap::new(memory).insert(4u32, 16u32).is_ok()
}

fn is_set_copied(set: &GHashSet<u32, &Refusing>) -> bool {
    let copy: Result<_, _> = set.clone();
    copy.is_ok()
}

fn is_set_cloned(memory: &Refusing) -> bool {
    let mut set = GHashSet::new(memory);
    set.insert(3).is_ok() && is_set_copied(&set)
}

fn is_map_copied(map: &GHashMap<u32, u32, &Refusing>) -> bool {
    let copy: Result<_, _> = map.clone();
    copy.is_ok()
}

fn is_map_cloned(memory: &Refusing) -> bool {
    let mut map = GHashMap::new(memory);
    map.insert(4, 16).is_ok() && is_map_copied(&map)
}

// Work that asks for memory: calls of a set or of a map.
pub(crate) enum Work {
    CollectSet,
    CollectMap,
    InsertMember,
    InsertValue,
    CloneSet,
    CloneMap,
}

// Whether the work was served.
pub(crate) fn is_served(work: &Work, memory: &Refusing) -> bool {
    match work {
        Work::CollectSet => is_set_collected(memory),
        Work::CollectMap => is_map_collected(memory),
        Work::InsertMember => is_member_put(memory),
        Work::InsertValue => is_value_put(memory),
        Work::CloneSet => is_set_cloned(memory),
        Work::CloneMap => is_map_cloned(memory),
    }
}

#[test]
fn collections_of_no_items_take_no_memory(rt: HostRuntime) {
    let memory = Refusing::from(rt.alloc(), 1);
    let is_made = [
        is_set_copied(&GHashSet::new(&memory)),
        is_map_copied(&GHashMap::new(&memory)),
        GHashSet::<u32, _>::from_iter(&memory, []).is_ok(),
        GHashMap::<u32, u32, _>::from_iter(&memory, []).is_ok(),
    ];
    assert!(rt; (is_made, memory.requests()) == ([true; 4], 0));
}

// Puts a member into a set and takes it out of what the set lends. Tells whether it was there, and how many are left.
fn taken_from_set(set: &mut GHashSet<u32, &Refusing>) -> Result<(bool, usize), AllocError> {
    set.insert(3)?;
    let is_taken = set.deref_mut().remove(&3);
    Ok((is_taken, set.deref().len()))
}

#[test]
fn a_set_is_lent_in_place(rt: HostRuntime) {
    let memory = Refusing::from(rt.alloc(), GROWTH + 1);
    let mut set = GHashSet::new(&memory);
    let before = memory.requests();
    let taken = taken_from_set(&mut set);
    assert!(rt; (before, taken, memory.requests()) == (0, Ok((true, 0)), GROWTH));
}

// Puts a pair into a map and takes it out of what the map lends. Tells its value, and how many are left.
fn taken_from_map(
    map: &mut GHashMap<u32, u32, &Refusing>,
) -> Result<(Option<u32>, usize), AllocError> {
    map.insert(4, 16)?;
    let taken = map.deref_mut().remove(&4);
    Ok((taken, map.deref().len()))
}

#[test]
fn a_map_is_lent_in_place(rt: HostRuntime) {
    let memory = Refusing::from(rt.alloc(), GROWTH + 1);
    let mut map = GHashMap::new(&memory);
    let before = memory.requests();
    let taken = taken_from_map(&mut map);
    assert!(rt; (before, taken, memory.requests()) == (0, Ok((Some(16), 0)), GROWTH));
}
