//! Lists of calls of a bit vector.
//!
//! BITS are digits, the first bit first, and TEXT is a binary text, the last bit first, or `[]` of no bits. A call whose
//! condition does not hold is answered by `skipped`.

mod places;
mod shown;
mod two;

use crate::calls::Call;
use crate::replies::Replies;
use giputils_bits::bitvec::{BitVec, BitVecError};
use std::alloc::Global;

/// Makes the calls on a vector that is empty.
pub(crate) fn replay(alloc: Global, calls: &str, replies: &mut Replies) {
    let mut bits = BitVec::new(alloc);
    for line in calls.lines() {
        make(alloc, &mut bits, Call::of(line), replies);
    }
}

// Makes the call of a constructor: `from BITS`, `from_elem LEN BIT`, `zero LEN`, `ones LEN`, `one LEN`, `from_usize LEN
// NUMBER` or `from_binary_text TEXT`. `ones` and `one` have a length above 0.
fn make(alloc: Global, bits: &mut BitVec, call: Call<'_>, replies: &mut Replies) {
    let len = call.number(0);
    let made = match call.name {
        "from" => BitVec::from(alloc, call.words.bytes().map(|digit| digit == b'1')),
        "from_elem" => BitVec::from_elem(alloc, len, call.is_one(1)),
        "zero" => BitVec::zero(alloc, len),
        "ones" => BitVec::ones(alloc, positive(len)),
        "one" => BitVec::one(alloc, positive(len)),
        "from_usize" => BitVec::from_usize(alloc, len, call.number(1)),
        "from_binary_text" => return read(alloc, bits, call.words, replies),
        _ => return change(alloc, bits, call, replies),
    };
    match made {
        Ok(made) => {
            *bits = made;
            replies.done(true);
        }
        Err(_) => replies.done(false),
    }
}

fn positive(len: usize) -> usize {
    if len > 0 { len } else { 1 }
}

// Reads a binary text. The vector stays as it was where the text is none.
fn read(alloc: Global, bits: &mut BitVec, text: &str, replies: &mut Replies) {
    match BitVec::from_binary_text(alloc, text.as_bytes()) {
        Ok(Some(made)) => {
            *bits = made;
            replies.done(true);
        }
        Ok(None) => replies.line("none"),
        Err(_) => replies.done(false),
    }
}

// Makes the call of `push BIT`, `push_word WORD`, `extend BITS`, `resize LEN BIT` or `invert`.
fn change(alloc: Global, bits: &mut BitVec, call: Call<'_>, replies: &mut Replies) {
    let changed = match call.name {
        "push" => bits.push(call.is_one(0)),
        "push_word" => bits.push_word(call.number(0) as u64),
        "extend" => bits.extend(call.words.bytes().map(|digit| digit == b'1')),
        "resize" => bits.resize(call.number(0), call.is_one(1)),
        "invert" => invert(bits),
        _ => return write(alloc, bits, call, replies),
    };
    replies.done(changed.is_ok());
}

fn invert(bits: &mut BitVec) -> Result<(), BitVecError> {
    *bits = bits.not()?;
    Ok(())
}

// Makes the call of `clear`, `negate`, `fill BIT` or `truncate LEN`.
fn write(alloc: Global, bits: &mut BitVec, call: Call<'_>, replies: &mut Replies) {
    match call.name {
        "clear" => bits.clear(),
        "negate" => bits.negate(),
        "fill" => bits.fill(call.is_one(0)),
        "truncate" => bits.truncate(call.number(0)),
        _ => return ask(alloc, bits, call, replies),
    }
    replies.done(true);
}

// Answers a question of one word.
fn ask(alloc: Global, bits: &mut BitVec, call: Call<'_>, replies: &mut Replies) {
    match call.name {
        "len" => replies.number(bits.len()),
        "word_len" => replies.number(bits.word_len()),
        "to_usize" => replies.number(bits.to_usize()),
        "is_empty" => replies.flag(bits.is_empty()),
        "try_bool" => tell_bit(bits.try_bool(), replies),
        "is_zero" | "is_one" | "is_ones" if bits.is_empty() => replies.skipped(),
        "is_zero" => replies.flag(bits.is_zero()),
        "is_one" => replies.flag(bits.is_one()),
        "is_ones" => replies.flag(bits.is_ones()),
        "pop" => tell_bit(bits.pop(), replies),
        _ => ask_as_set(alloc, bits, call, replies),
    }
}

// Answers a question on the places that are true.
fn ask_as_set(alloc: Global, bits: &mut BitVec, call: Call<'_>, replies: &mut Replies) {
    match call.name {
        "count_ones" => replies.number(bits.count_ones()),
        "any" => replies.flag(bits.any()),
        "all" => replies.flag(bits.all()),
        "none" => replies.flag(bits.none()),
        "first_one" => tell_place(bits.first_one(), replies),
        "next_one" => tell_place(bits.next_one(call.number(0)), replies),
        "get" | "put" | "set" | "flip" | "set_word" => places::make(bits, call, replies),
        _ if shown::is_call(call.name) => shown::tell(bits, call, replies),
        _ => two::make(alloc, bits, call, replies),
    }
}

fn tell_bit(bit: Option<bool>, replies: &mut Replies) {
    replies.line(match bit {
        Some(true) => "some true",
        Some(false) => "some false",
        None => "none",
    });
}

fn tell_place(place: Option<usize>, replies: &mut Replies) {
    match place {
        Some(place) => {
            replies.piece("some ");
            replies.number(place);
        }
        None => replies.line("none"),
    }
}
