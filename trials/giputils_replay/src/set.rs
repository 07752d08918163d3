//! Lists of calls of a hashed set.
//!
//! - `collect NUMBER..` makes the set anew, and `clone` goes on with a clone.
//! - `remove NUMBER`, `contains NUMBER` and `len`: the calls of these names. `exchange OUT IN` removes one number and
//!   inserts another, and tells whether that is new. `exchange_beside_clone OUT IN` makes a clone before, and gives the
//!   clone's text.
//! - `members` gives all members in rising order, and leaves the set empty; `text` gives the set's text.

use crate::calls::Call;
use crate::replies::Replies;
use giputils_hash::hash::GHashSet;
use std::alloc::{AllocError, Global};
use std::mem;

/// Makes the calls on a set of no members.
pub(crate) fn replay(alloc: Global, calls: &str, replies: &mut Replies) {
    let mut set = GHashSet::new(alloc);
    for line in calls.lines() {
        answer(alloc, &mut set, Call::of(line), replies);
    }
}

// Makes a call, and tells its reply.
fn answer(alloc: Global, set: &mut GHashSet<u32>, call: Call<'_>, replies: &mut Replies) {
    let number = call.short(0);
    match call.name {
        "collect" => replies.done(collect(alloc, set, call.words).is_ok()),
        "clone" => replies.done(go_on_with_clone(set).is_ok()),
        "len" => replies.number(set.len()),
        "contains" => replies.flag(has(set, number)),
        "remove" => replies.flag(set.remove(&number)),
        "exchange" => replies.flag(exchange(set, number, call.short(1)) == Ok(true)),
        "exchange_beside_clone" => exchange_beside_clone(set, number, call.short(1), replies),
        "members" => tell_members(alloc, set, replies),
        "text" => replies.debugged(set),
        _ => replies.unknown(),
    }
}

// Makes the set anew from numbers.
fn collect(alloc: Global, set: &mut GHashSet<u32>, words: &str) -> Result<(), AllocError> {
    let mut numbers = Vec::new(alloc);
    for word in words.split(' ') {
        numbers.push(word.parse().unwrap_or(0))?;
    }
    *set = GHashSet::from_iter(alloc, numbers)?;
    Ok(())
}

fn go_on_with_clone(set: &mut GHashSet<u32>) -> Result<(), AllocError> {
    *set = set.clone()?;
    Ok(())
}

// Takes all members out, and tells them in rising order.
fn tell_members(alloc: Global, set: &mut GHashSet<u32>, replies: &mut Replies) {
    match members(alloc, set) {
        Ok(members) => replies.debugged(&members),
        Err(_) => replies.done(false),
    }
}

fn members(alloc: Global, set: &mut GHashSet<u32>) -> Result<Vec<u32>, AllocError> {
    let taken = mem::replace(set, GHashSet::new(alloc));
    let mut members: Vec<u32> = taken.into_iter().collect(alloc)?;
    members.sort_unstable();
    Ok(members)
}

fn has(set: &GHashSet<u32>, key: u32) -> bool {
    set.contains(&key)
}

fn exchange(set: &mut GHashSet<u32>, out: u32, within: u32) -> Result<bool, AllocError> {
    set.remove(&out);
    let is_new = set.insert(within)?;
    Ok(is_new)
}

// Tells the text of a clone of the set, for whose number another one comes in the set itself.
fn exchange_beside_clone(set: &mut GHashSet<u32>, out: u32, within: u32, replies: &mut Replies) {
    let Ok(clone) = set.clone() else {
        return replies.done(false);
    };
    let _ = exchange(set, out, within);
    replies.debugged(&clone);
}
