//! Lists of calls of a vector of numbers.
//!
//! - `collect NUMBER..` makes the vector anew from an iterator, `vec NUMBER..` from a `Vec`, and `array A B` from an
//!   array; `clone` goes on with a clone.
//! - `push NUMBER`, `swap PLACE PLACE`, `swap_remove PLACE`, `reserve LENGTH`, `clear` and `len`: the calls of these names.
//! - `exchange PLACE NUMBER` writes a number and gives the one before, and `bump PLACE` adds 1 to a number below 10.
//! - `total` gives the sum, `contains NUMBER` tells whether a number is held, `items` gives all numbers, and `text` the
//!   vector's text.

use crate::calls::Call;
use crate::replies::Replies;
use giputils_vec::gvec::Gvec;
use std::alloc::{AllocError, Allocator, Global};

/// Makes the calls on a vector of no items.
pub(crate) fn replay(alloc: Global, calls: &str, replies: &mut Replies) {
    let mut g = Gvec::new(alloc);
    for line in calls.lines() {
        make(alloc, &mut g, Call::of(line), replies);
    }
}

// Makes the vector anew, if the call is one that does, and tells its reply.
fn make(alloc: Global, g: &mut Gvec<u32>, call: Call<'_>, replies: &mut Replies) {
    let made = match call.name {
        "collect" => collected(alloc, call.words),
        "vec" => from_vec(alloc, call.words),
        "array" => Gvec::from_array(alloc, [call.short(0), call.short(1)]),
        "clone" => cloned(g),
        _ => return answer(g, call, replies),
    };
    match made {
        Ok(made) => {
            *g = made;
            replies.done(true);
        }
        Err(_) => replies.done(false),
    }
}

fn numbers(alloc: Global, words: &str) -> Result<Vec<u32>, AllocError> {
    let mut numbers = Vec::new(alloc);
    for word in words.split(' ') {
        numbers.push(word.parse().unwrap_or(0))?;
    }
    Ok(numbers)
}

fn collected(alloc: Global, words: &str) -> Result<Gvec<u32>, AllocError> {
    let numbers = numbers(alloc, words)?;
    copied(alloc, &numbers)
}

fn copied(alloc: Global, items: &[u32]) -> Result<Gvec<u32>, AllocError> {
    items.iter().copied().collect(alloc)
}

fn from_vec(alloc: Global, words: &str) -> Result<Gvec<u32>, AllocError> {
    Ok(Gvec::from(numbers(alloc, words)?))
}

fn cloned<A: Allocator + Clone>(g: &Gvec<u32, A>) -> Result<Gvec<u32, A>, AllocError> {
    g.clone()
}

// Makes another call, and tells its reply.
fn answer(g: &mut Gvec<u32>, call: Call<'_>, replies: &mut Replies) {
    let number = call.short(0);
    match call.name {
        "push" => replies.done(g.push(number).is_ok()),
        "reserve" => replies.done(g.reserve(number as usize).is_ok()),
        "len" => replies.number(g.len()),
        "items" => replies.debugged(&g.as_slice()),
        "text" => replies.debugged(g),
        "contains" => replies.flag(holds(g, number)),
        "total" if g.len() < 4294967296 => replies.number(total(g) as usize),
        "clear" => {
            clear_through(g);
            replies.done(true);
        }
        _ if (number as usize) < g.len() => answer_at(g, number as usize, call, replies),
        _ => replies.skipped(),
    }
}

// The same at a place.
fn answer_at(g: &mut Gvec<u32>, place: usize, call: Call<'_>, replies: &mut Replies) {
    match call.name {
        "exchange" => replies.value(Some(exchange(g, place, call.short(1)))),
        "swap" => swap(g, call.short(0), call.short(1), replies),
        "swap_remove" => {
            g.swap_remove(place);
            replies.done(true);
        }
        "bump" if g[place] < 10 => {
            bump(g, place);
            replies.done(true);
        }
        _ => replies.unknown(),
    }
}

fn swap(g: &mut Gvec<u32>, first: u32, second: u32, replies: &mut Replies) {
    let len = g.len();
    if (first as usize) < len && (second as usize) < len {
        g.swap(first, second);
        replies.done(true);
    } else {
        replies.unknown();
    }
}

fn total<A: Allocator>(g: &Gvec<u32, A>) -> u64 {
    g.iter().map(|x| u64::from(*x)).sum()
}

fn clear_through<T: Drop, A: Allocator>(g: &mut Gvec<T, A>) {
    g.clear();
}

fn holds<A: Allocator>(g: &Gvec<u32, A>, x: u32) -> bool {
    g.contains(&x)
}

fn bump<A: Allocator>(g: &mut Gvec<u32, A>, i: usize) {
    g[i] += 1;
}

fn exchange<A: Allocator>(g: &mut Gvec<u32, A>, i: usize, x: u32) -> u32 {
    let old = g[i];
    g[i] = x;
    old
}
