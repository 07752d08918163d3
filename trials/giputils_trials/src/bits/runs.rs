//! Runs of calls that are refused memory.

use giputils_bits::bitvec::BitVecError;
use giputils_bits::run::{BitCall, BitReply, bit_run};
use giputils_refusing::{Refusing, refuse_from_each};

fn growing_calls(items: &[bool]) -> [BitCall<'_>; 6] {
    [
        BitCall::PushWord(5),
        BitCall::Extend(items),
        BitCall::Invert,
        BitCall::PushWord(7),
        BitCall::Push(true),
        BitCall::Len,
    ]
}

// Whether a call was refused.
fn has_refusal(replies: &[BitReply]) -> bool {
    for reply in replies {
        if matches!(reply, BitReply::Refused(..)) {
            return true;
        }
    }
    false
}

// A run that grows and negates a vector.
fn is_run(memory: &Refusing) -> bool {
    let items = [true; 70];
    match bit_run(memory, &growing_calls(&items)) {
        Ok((_, replies)) => !has_refusal(&replies),
        Err(_) => false,
    }
}

// How many requests a growing vector makes is open: the replies, a second word and a negation make one each.
#[test]
fn each_request_of_a_run_is_refused_in_turn(rt: HostRuntime) {
    let outcome = refuse_from_each(rt.alloc(), is_run);
    assert!(rt; outcome.is_ok_and(|requests| requests >= 3), "{outcome:?}");
}

// Three calls, the second of which asks for memory.
fn extending_calls(items: &[bool]) -> [BitCall<'_>; 3] {
    [
        BitCall::PushWord(1),
        BitCall::Extend(items),
        BitCall::Invert,
    ]
}

// Runs the three. Tells whether the second alone was refused, and the others were made.
fn goes_on(memory: &Refusing) -> bool {
    let items = [true, true, true];
    let Ok((bits, replies)) = bit_run(memory, &extending_calls(&items)) else {
        return false;
    };
    let refused = BitReply::Refused(BitVecError::Memory, 0);
    let wanted = [BitReply::Done, refused, BitReply::Done];
    replies.as_slice() == wanted.as_slice() && bits.words() == [!1].as_slice()
}

#[test]
fn a_run_goes_on_after_a_refusal(rt: HostRuntime) {
    let memory = Refusing::from(rt.alloc(), 2);
    assert!(rt; goes_on(&memory));
}

#[test]
fn a_run_that_is_refused_its_replies_is_not_made(rt: HostRuntime) {
    let memory = Refusing::nth(rt.alloc(), 1);
    let calls: [BitCall; 1] = [BitCall::PushWord(1)];
    let is_made = bit_run(&memory, &calls).is_ok();
    assert!(rt; (is_made, memory.requests()) == (false, 1));
}
