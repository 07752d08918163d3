//! The texts of a vector, its words, its true places, and the bits of an iterator.

use crate::calls::Call;
use crate::replies::Replies;
use giputils_bits::bitvec::BitVec;

/// Whether a call of this name asks for one of these.
pub(super) fn is_call(name: &str) -> bool {
    matches!(
        name,
        "iter" | "words" | "iter_ones" | "texts" | "bin" | "hex" | "HEX"
    )
}

/// Tells what a call asks for.
pub(super) fn tell(bits: &BitVec, call: Call<'_>, replies: &mut Replies) {
    match call.name {
        "iter" => return tell_steps(bits, call.words, replies),
        "words" => return replies.debugged(&bits.words()),
        "iter_ones" => return tell_places(bits, replies),
        "texts" => return tell_texts(bits, replies),
        "bin" => replies.shown(bits),
        "hex" => replies.shown(&bits.lower_hex()),
        _ => replies.shown(&bits.upper_hex()),
    }
    replies.line("");
}

// Takes bits from the front at `n` and from the back at any other step, and tells each as a digit, and `-` at the end.
fn tell_steps(bits: &BitVec, steps: &str, replies: &mut Replies) {
    let mut iter = bits.iter();
    for step in steps.bytes() {
        let bit = if step == b'n' {
            iter.next()
        } else {
            iter.next_back()
        };
        replies.piece(match bit {
            Some(true) => "1",
            Some(false) => "0",
            None => "-",
        });
    }
    replies.line("");
}

// Tells the true places, and `end` behind them.
fn tell_places(bits: &BitVec, replies: &mut Replies) {
    for place in bits.iter_ones() {
        replies.shown(&place);
        replies.piece(" ");
    }
    replies.line("end");
}

// Tells each text of a vector, some of them under options.
fn tell_texts(bits: &BitVec, replies: &mut Replies) {
    let (lower, upper) = (bits.lower_hex(), bits.upper_hex());
    replies.shown(&format_args!("{bits} {bits:>300?} {lower} {upper:#09}"));
    replies.line("");
}
