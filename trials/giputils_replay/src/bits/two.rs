//! Calls that are lent other vectors, which are named by their texts.

use crate::calls::Call;
use crate::replies::Replies;
use giputils_bits::bitvec::{BitVec, BitVecError};
use std::alloc::Global;
use std::cmp::Ordering;

/// Makes a call that is lent one vector, or `assign_and TEXT NEGATED TEXT NEGATED`.
pub(super) fn make(alloc: Global, bits: &mut BitVec, call: Call<'_>, replies: &mut Replies) {
    let Ok(first) = vector(alloc, call.word(0)) else {
        return replies.done(false);
    };
    if call.name == "assign_and" {
        assign_and(alloc, bits, &first, call, replies);
    } else {
        lend(bits, call.name, &first, replies);
    }
}

// The vector with this text.
fn vector(alloc: Global, text: &str) -> Result<BitVec, BitVecError> {
    let mut bits = BitVec::new(alloc);
    for digit in text.bytes().rev() {
        if digit == b'0' || digit == b'1' {
            bits.push(digit == b'1')?;
        }
    }
    Ok(bits)
}

fn lend(bits: &mut BitVec, name: &str, other: &BitVec, replies: &mut Replies) {
    match name {
        "append" => replies.done(bits.append(other).is_ok()),
        "eq" => replies.flag(*bits == *other),
        "ne" => replies.flag(*bits != *other),
        "cmp" => replies.line(name_of(BitVec::cmp(bits, other))),
        _ if bits.len() != other.len() => replies.skipped(),
        "is_subset" => replies.flag(bits.is_subset(other)),
        "is_disjoint" => replies.flag(bits.is_disjoint(other)),
        _ => join(bits, name, other, replies),
    }
}

fn name_of(order: Ordering) -> &'static str {
    match order {
        Ordering::Less => "less",
        Ordering::Equal => "equal",
        Ordering::Greater => "greater",
    }
}

// Joins a vector with one of its length.
fn join(bits: &mut BitVec, name: &str, other: &BitVec, replies: &mut Replies) {
    if bits.len() != other.len() {
        return replies.skipped();
    }
    match name {
        "and" => *bits &= other,
        "or" => *bits |= other,
        "xor" => *bits ^= other,
        "copy_from" => bits.copy_from(other),
        "difference_with" => bits.difference_with(other),
        _ => return replies.unknown(),
    }
    replies.done(true);
}

fn assign_and(
    alloc: Global,
    bits: &mut BitVec,
    first: &BitVec,
    call: Call<'_>,
    replies: &mut Replies,
) {
    let Ok(second) = vector(alloc, call.word(2)) else {
        return replies.done(false);
    };
    if bits.len() != first.len() || bits.len() != second.len() {
        return replies.skipped();
    }
    bits.assign_and(first, call.is_one(1), &second, call.is_one(3));
    replies.done(true);
}
