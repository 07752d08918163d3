//! Lists of calls of a hashed map.
//!
//! - `collect` makes the map anew from the pairs (1, 5), (2, 6) and (1, 7), in this order; `clone` goes on with a clone.
//! - `insert KEY VALUE`, `remove KEY`, `contains_key KEY`, `get KEY` and `len`: the calls of these names. `raise KEY` adds
//!   1 to a value, and tells whether there is one.
//! - `pairs` gives all pairs by rising key, and leaves the map empty; `text` gives the map's text.

use crate::calls::Call;
use crate::replies::Replies;
use giputils_hash::hash::GHashMap;
use std::alloc::{AllocError, Global};
use std::mem;

/// Makes the calls on a map of no keys.
pub(crate) fn replay(alloc: Global, calls: &str, replies: &mut Replies) {
    let mut map = GHashMap::new(alloc);
    for line in calls.lines() {
        answer(alloc, &mut map, Call::of(line), replies);
    }
}

// Makes a call, and tells its reply.
fn answer(alloc: Global, map: &mut GHashMap<u32, u32>, call: Call<'_>, replies: &mut Replies) {
    let key = call.short(0);
    match call.name {
        "collect" => put_back(map, later_values(alloc), replies),
        "clone" => {
            let made = cloned(map);
            put_back(map, made, replies);
        }
        "insert" => replies.done(put(map, key, call.short(1)).is_ok()),
        "len" => replies.number(map.len()),
        "text" => replies.debugged(map),
        "pairs" => tell_pairs(alloc, map, replies),
        "get" => replies.value(value_at(map, key)),
        "remove" => replies.value(map.remove(&key)),
        "contains_key" => replies.flag(map.contains_key(&key)),
        "raise" => replies.flag(raised(map, key)),
        _ => replies.unknown(),
    }
}

// Goes on with a map that was made.
fn put_back(
    map: &mut GHashMap<u32, u32>,
    made: Result<GHashMap<u32, u32>, AllocError>,
    replies: &mut Replies,
) {
    match made {
        Ok(made) => {
            *map = made;
            replies.done(true);
        }
        Err(_) => replies.done(false),
    }
}

fn later_values(alloc: Global) -> Result<GHashMap<u32, u32>, AllocError> {
    [(1u32, 5u32), (2, 6), (1, 7)].into_iter().collect(alloc)
}

fn cloned(map: &GHashMap<u32, u32>) -> Result<GHashMap<u32, u32>, AllocError> {
    map.clone()
}

// Takes all pairs out, and tells them by rising key.
fn tell_pairs(alloc: Global, map: &mut GHashMap<u32, u32>, replies: &mut Replies) {
    match pairs(alloc, map) {
        Ok(pairs) => replies.debugged(&pairs),
        Err(_) => replies.done(false),
    }
}

fn pairs(alloc: Global, map: &mut GHashMap<u32, u32>) -> Result<Vec<(u32, u32)>, AllocError> {
    let taken = mem::replace(map, GHashMap::new(alloc));
    let mut pairs: Vec<(u32, u32)> = taken.into_iter().collect(alloc)?;
    pairs.sort_unstable();
    Ok(pairs)
}

fn value_at(map: &GHashMap<u32, u32>, key: u32) -> Option<u32> {
    map.get(&key).copied()
}

// Whether the key had a value, which is one greater then.
fn raised(map: &mut GHashMap<u32, u32>, key: u32) -> bool {
    match map.get_mut(&key) {
        Some(value) => {
            *value = value.wrapping_add(1);
            true
        }
        None => false,
    }
}

fn put(map: &mut GHashMap<u32, u32>, key: u32, value: u32) -> Result<(), AllocError> {
    map.insert(key, value)?;
    Ok(())
}
