//! Lists of calls of the index allocator, which are made in one run.
//!
//! `alloc VALUE`, `dealloc INDEX`, `is_removed INDEX`, `read INDEX`, `write INDEX VALUE`, `gc` and `len`: the calls of
//! these names. A map is told by rising key, as in `{0:0 2:1}`.

use crate::calls::Call;
use crate::replies::Replies;
use giputils_hash::hash::GHashMap;
use giputils_index::allocator::{GallocCall, GallocReply, galloc_run};
use std::alloc::{AllocError, Global};

/// Makes the calls on an allocator of no slots.
pub(crate) fn replay(alloc: Global, calls: &str, replies: &mut Replies) {
    match replies_to(alloc, calls) {
        Ok(said) => tell_each(alloc, &said, replies),
        Err(_) => replies.done(false),
    }
}

fn replies_to(alloc: Global, calls: &str) -> Result<Vec<GallocReply<u32>>, AllocError> {
    let mut made = Vec::new(alloc);
    for line in calls.lines() {
        if made.push(made_call(Call::of(line))).is_err() {
            return Err(AllocError);
        }
    }
    run(alloc, &made)
}

fn run(alloc: Global, calls: &[GallocCall<u32>]) -> Result<Vec<GallocReply<u32>>, AllocError> {
    let (_, said) = galloc_run(alloc, calls)?;
    Ok(said)
}

// The call of a line. One that is none asks for the length.
fn made_call(call: Call<'_>) -> GallocCall<u32> {
    let index = call.number(0);
    match call.name {
        "alloc" => GallocCall::Alloc(call.short(0)),
        "dealloc" => GallocCall::Dealloc(index),
        "is_removed" => GallocCall::IsRemoved(index),
        "read" => GallocCall::Read(index),
        "write" => GallocCall::Write(index, call.short(1)),
        "gc" => GallocCall::Gc,
        _ => GallocCall::Len,
    }
}

fn tell_each(alloc: Global, said: &[GallocReply<u32>], replies: &mut Replies) {
    for reply in said {
        tell(alloc, reply, replies);
    }
}

fn tell(alloc: Global, reply: &GallocReply<u32>, replies: &mut Replies) {
    match reply {
        GallocReply::Index(n) | GallocReply::Length(n) => replies.number(*n),
        GallocReply::Value(value) => replies.number(*value as usize),
        GallocReply::Flag(flag) => replies.flag(*flag),
        GallocReply::Done => replies.done(true),
        GallocReply::Skipped => replies.skipped(),
        GallocReply::Refused => replies.line("refused"),
        GallocReply::Map(map) => tell_map(alloc, map, replies),
    }
}

fn tell_map(alloc: Global, map: &GHashMap<usize, usize>, replies: &mut Replies) {
    match pairs(alloc, map) {
        Ok(pairs) => tell_pairs(&pairs, replies),
        Err(_) => replies.done(false),
    }
}

// The pairs of a map, by rising key.
fn pairs(alloc: Global, map: &GHashMap<usize, usize>) -> Result<Vec<(usize, usize)>, AllocError> {
    let mut pairs = Vec::with_capacity(alloc, map.len())?;
    for (old, new) in map.iter() {
        pairs.push((*old, *new))?;
    }
    pairs.sort_unstable();
    Ok(pairs)
}

fn tell_pairs(pairs: &[(usize, usize)], replies: &mut Replies) {
    replies.piece("{");
    for (i, (old, new)) in pairs.iter().enumerate() {
        replies.piece(if i == 0 { "" } else { " " });
        replies.shown(old);
        replies.piece(":");
        replies.shown(new);
    }
    replies.line("}");
}
