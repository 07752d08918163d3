//! Lists of calls of an index allocator, which are made one by one.
//!
//! - `alloc VALUE`, `dealloc INDEX`, `is_removed INDEX`, `read INDEX`, `get INDEX`, `take INDEX`, `len`, `live_len`: the
//!   calls of these names, and the value of a slot. `read_short INDEX` reads by an index of 32 bits.
//! - `write INDEX VALUE` writes a slot by an index of 32 bits, `set INDEX VALUE` a live value that is lent, and
//!   `take_out INDEX VALUE` leaves a value.
//! - `put_both VALUE VALUE` puts in two values with room ahead.
//! - `gc_table` gives the new index of each old one.
//! - `items` gives the live values with their indexes, and `text` the text of the allocator.

use crate::calls::Call;
use crate::replies::Replies;
use giputils_index::allocator::Gallocator;
use std::alloc::{AllocError, Global};
use std::mem;

/// Makes the calls on an allocator of no slots.
pub(crate) fn replay(alloc: Global, calls: &str, replies: &mut Replies) {
    let mut slots = Gallocator::new(alloc);
    for line in calls.lines() {
        answer(alloc, &mut slots, Call::of(line), replies);
    }
}

// Makes a call that needs no slot, and tells its reply.
fn answer(alloc: Global, slots: &mut Gallocator<u32>, call: Call<'_>, replies: &mut Replies) {
    let index = call.number(0);
    match call.name {
        "alloc" => put(slots, call.short(0), replies),
        "put_both" => replies.done(put_both(alloc, slots, call.short(0), call.short(1)).is_ok()),
        "len" => replies.number(slots.len()),
        "live_len" => replies.number(slots.live_len()),
        "gc_table" => tell_table(slots, replies),
        "items" => tell_items(alloc, slots, replies),
        "text" => replies.debugged(slots),
        "get" => replies.value(slots.get(index).copied()),
        "take" => replies.value(slots.take(index)),
        "set" => replies.flag(set(slots, index, call.short(1))),
        _ if index < slots.len() => answer_at(slots, index, call, replies),
        _ => replies.skipped(),
    }
}

// The same at a slot that is there.
fn answer_at(slots: &mut Gallocator<u32>, index: usize, call: Call<'_>, replies: &mut Replies) {
    match call.name {
        "is_removed" => return replies.flag(slots.is_removed(index)),
        "read" => return replies.value(Some(read(slots, index))),
        "read_short" => return replies.value(read_short(slots, call.short(0))),
        "take_out" => return replies.value(Some(slots.take_out(index, call.short(1)))),
        "dealloc" => slots.dealloc(index),
        "write" => return overwrite_short(slots, call.short(0), call.short(1), replies),
        _ => return replies.unknown(),
    }
    replies.done(true);
}

fn put(slots: &mut Gallocator<u32>, value: u32, replies: &mut Replies) {
    match slots.alloc(value) {
        Ok(index) => replies.number(index),
        Err(_) => replies.done(false),
    }
}

fn tell_table(slots: &mut Gallocator<u32>, replies: &mut Replies) {
    match slots.gc_table() {
        Ok(table) => replies.debugged(&table),
        Err(_) => replies.done(false),
    }
}

fn tell_items(alloc: Global, slots: &Gallocator<u32>, replies: &mut Replies) {
    match live_values(slots, alloc) {
        Ok(items) => replies.debugged(&items),
        Err(_) => replies.done(false),
    }
}

// The live values, each with its index.
fn live_values(slots: &Gallocator<u32>, alloc: Global) -> Result<Vec<(usize, u32)>, AllocError> {
    slots
        .iter()
        .map(|(index, value)| (index, *value))
        .collect(alloc)
}

fn read(slots: &Gallocator<u32>, index: usize) -> u32 {
    slots[index]
}

fn read_short(slots: &Gallocator<u32>, index: u32) -> Option<u32> {
    if (index as usize) < slots.len() {
        Some(slots[index])
    } else {
        None
    }
}

// Whether the slot has a live value, which is this one then.
fn set(slots: &mut Gallocator<u32>, index: usize, value: u32) -> bool {
    match slots.get_mut(index) {
        Some(live) => {
            *live = value;
            true
        }
        None => false,
    }
}

fn overwrite_short(slots: &mut Gallocator<u32>, index: u32, value: u32, replies: &mut Replies) {
    if (index as usize) < slots.len() {
        overwrite(slots, index, value);
        replies.done(true);
    } else {
        replies.skipped();
    }
}

fn overwrite(slots: &mut Gallocator<u32>, index: u32, value: u32) {
    slots[index] = value;
}

// Puts in two values with room ahead.
fn put_both(
    alloc: Global,
    slots: &mut Gallocator<u32>,
    first: u32,
    second: u32,
) -> Result<(), AllocError> {
    let before = mem::replace(slots, Gallocator::new(alloc));
    *slots = both_put(before, first, second)?;
    Ok(())
}

fn both_put(
    slots: Gallocator<u32>,
    first: u32,
    second: u32,
) -> Result<Gallocator<u32>, AllocError> {
    let mut room = slots.into_reserved();
    room.reserve(2)?;
    room.alloc_reserved(first);
    room.alloc_reserved(second);
    Ok(room.finish())
}
