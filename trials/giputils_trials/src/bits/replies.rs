//! The replies of runs.

use giputils_bits::bitvec::{BitVec, BitVecError};
use giputils_bits::run::{BitCall, BitReply, bit_run};
use std::alloc::Global;
use std::test::Fail;

// Whether a vector has this text in base 16.
fn is_text(alloc: Global, bits: &BitVec, text: &str) -> bool {
    match format!(in alloc; "{}", bits.lower_hex()) {
        Ok(written) => written.as_str() == text,
        Err(_) => false,
    }
}

// Whether a run of the calls gives these replies, and leaves a vector with this text in base 16.
fn runs(alloc: Global, calls: &[BitCall<'_>], replies: &[BitReply], text: &str) -> bool {
    match bit_run(alloc, calls) {
        Ok((bits, got)) => got.as_slice() == replies && is_text(alloc, &bits, text),
        Err(_) => false,
    }
}

#[test]
fn a_run_skips_what_cannot_be_called(rt: HostRuntime) {
    let calls: &[BitCall] = &[
        BitCall::Push(true),
        BitCall::Bool,
        BitCall::GetBit(1),
        BitCall::Clear,
        BitCall::PushWord(5),
        BitCall::Len,
        BitCall::ToUsize,
        BitCall::IsOne,
        BitCall::TryBool,
        BitCall::SetBit(0, false),
        BitCall::IsZero,
        BitCall::Bool,
    ];
    let replies = &[
        BitReply::Done,
        BitReply::Bit(true),
        BitReply::Skipped,
        BitReply::Done,
        BitReply::Done,
        BitReply::Number(64),
        BitReply::Number(5),
        BitReply::Bit(false),
        BitReply::MaybeBit(None),
        BitReply::Done,
        BitReply::Bit(false),
        BitReply::Skipped,
    ];
    assert!(rt; runs(rt.alloc(), calls, replies, "0x4"));
}

// What a run borrows.
#[derive(Drop)]
struct Operands {
    items: [bool; 5],
    mask: BitVec,
    four: BitVec,
}

fn lent(alloc: Global) -> Result<Operands, BitVecError> {
    Ok(Operands {
        items: [true, false, true, true, false],
        mask: BitVec::from_usize(alloc, 5, 0b00111)?,
        four: BitVec::zero(alloc, 4)?,
    })
}

fn logic_calls(operands: &Operands) -> [BitCall<'_>; 6] {
    [
        BitCall::Extend(&operands.items),
        BitCall::AndWith(&operands.mask),
        BitCall::Invert,
        BitCall::Len,
        BitCall::XorWith(&operands.four),
        BitCall::ToUsize,
    ]
}

fn is_run_of_logic(alloc: Global, operands: &Operands) -> bool {
    let replies = &[
        BitReply::Done,
        BitReply::Done,
        BitReply::Done,
        BitReply::Number(5),
        BitReply::Skipped,
        BitReply::Number(26),
    ];
    runs(alloc, &logic_calls(operands), replies, "0x1a")
}

#[test]
fn a_run_of_logic(rt: HostRuntime) -> Result<(), Fail> {
    let is_right = is_run_of_logic(rt.alloc(), &lent(rt.alloc())?);
    assert!(rt; is_right);
    Ok(())
}

fn set_calls(operands: &Operands) -> [BitCall<'_>; 12] {
    [
        BitCall::Extend(&operands.items),
        BitCall::Put(1, true),
        BitCall::Flip(0),
        BitCall::CountOnes,
        BitCall::NextOne(2),
        BitCall::IsSubset(&operands.mask),
        BitCall::DifferenceWith(&operands.mask),
        BitCall::IsDisjoint(&operands.mask),
        BitCall::Append(&operands.four),
        BitCall::Resize(70, true),
        BitCall::Truncate(6),
        BitCall::Pop,
    ]
}

fn is_run_of_a_set(alloc: Global, operands: &Operands) -> bool {
    let replies = &[
        BitReply::Done,
        BitReply::Bit(false),
        BitReply::Done,
        BitReply::Number(3),
        BitReply::Place(Some(2)),
        BitReply::Bit(false),
        BitReply::Done,
        BitReply::Bit(true),
        BitReply::Done,
        BitReply::Done,
        BitReply::Done,
        BitReply::MaybeBit(Some(false)),
    ];
    runs(alloc, &set_calls(operands), replies, "0x8")
}

#[test]
fn a_run_of_a_set(rt: HostRuntime) -> Result<(), Fail> {
    let is_right = is_run_of_a_set(rt.alloc(), &lent(rt.alloc())?);
    assert!(rt; is_right);
    Ok(())
}

#[test]
fn a_run_appends_a_word_anywhere(rt: HostRuntime) {
    let calls: &[BitCall] = &[
        BitCall::Push(true),
        BitCall::PushWord(5),
        BitCall::Len,
        BitCall::ToUsize,
    ];
    let replies = &[
        BitReply::Done,
        BitReply::Done,
        BitReply::Number(65),
        BitReply::Number(11),
    ];
    assert!(rt; runs(rt.alloc(), calls, replies, "0x0000000000000000b"));
}
