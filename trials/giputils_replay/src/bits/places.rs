//! Calls that name a place: `get PLACE`, `set PLACE BIT`, `put PLACE BIT`, `flip PLACE` and `set_word INDEX WORD`.

use crate::calls::Call;
use crate::replies::Replies;
use giputils_bits::bitvec::BitVec;

/// Makes a call, if the vector has the place.
pub(super) fn make(bits: &mut BitVec, call: Call<'_>, replies: &mut Replies) {
    let place = call.number(0);
    if call.name == "set_word" {
        set_word(bits, place, call.number(1), replies);
    } else if place < bits.len() {
        make_at(bits, call.name, place, call.is_one(1), replies);
    } else {
        replies.skipped();
    }
}

fn set_word(bits: &mut BitVec, index: usize, word: usize, replies: &mut Replies) {
    if index >= bits.word_len() {
        return replies.skipped();
    }
    bits.set_word(index, word as u64);
    replies.done(true);
}

fn make_at(bits: &mut BitVec, name: &str, place: usize, bit: bool, replies: &mut Replies) {
    match name {
        "get" => return replies.flag(bits.get(place)),
        "put" => return replies.flag(bits.put(place, bit)),
        "set" => bits.set(place, bit),
        _ => bits.flip(place),
    }
    replies.done(true);
}
