//! Vectors that a call takes by value.

use giputils_bits::bitvec::{BitVec, BitVecError};
use std::alloc::Global;
use std::test::Fail;

// Two vectors of one length.
fn five_places(alloc: Global) -> Result<(BitVec, BitVec), BitVecError> {
    let bits = BitVec::from_usize(alloc, 5, 0b01101)?;
    let mask = BitVec::from_usize(alloc, 5, 0b00111)?;
    Ok((bits, mask))
}

// The length of a vector, and the number that it is.
fn told(bits: &BitVec) -> (usize, usize) {
    (bits.len(), bits.to_usize())
}

fn anded(bits: BitVec, mask: BitVec) -> Option<(usize, usize)> {
    if bits.len() != mask.len() {
        return None;
    }
    Some(told(&(bits & mask)))
}

fn ored(bits: BitVec, mask: BitVec) -> Option<(usize, usize)> {
    if bits.len() != mask.len() {
        return None;
    }
    Some(told(&(bits | mask)))
}

fn xored(bits: BitVec, mask: BitVec) -> Option<(usize, usize)> {
    if bits.len() != mask.len() {
        return None;
    }
    Some(told(&(bits ^ mask)))
}

fn in_both(alloc: Global) -> Result<Option<(usize, usize)>, BitVecError> {
    let (bits, mask) = five_places(alloc)?;
    Ok(anded(bits, mask))
}

fn in_one(alloc: Global) -> Result<Option<(usize, usize)>, BitVecError> {
    let (bits, mask) = five_places(alloc)?;
    Ok(ored(bits, mask))
}

fn in_one_alone(alloc: Global) -> Result<Option<(usize, usize)>, BitVecError> {
    let (bits, mask) = five_places(alloc)?;
    Ok(xored(bits, mask))
}

#[test]
fn logic_goes_place_by_place(rt: HostRuntime) -> Result<(), Fail> {
    let alloc = rt.alloc();
    assert!(rt; in_both(alloc)? == Some((5, 0b00101)));
    assert!(rt; in_one(alloc)? == Some((5, 0b01111)));
    assert!(rt; in_one_alone(alloc)? == Some((5, 0b01010)));
    Ok(())
}

#[test]
fn a_vector_is_negated_by_value(rt: HostRuntime) -> Result<(), Fail> {
    let bits = BitVec::from_usize(rt.alloc(), 66, 0b01101)?;
    assert!(rt; (!bits).words() == [!0b01101, 0b11].as_slice());
    Ok(())
}

// The end of a vector of three bits, then its front until nothing is left, and then its end again.
fn from_both_ends(bits: BitVec) -> [Option<bool>; 5] {
    let mut iter = bits.into_iter();
    let end = iter.next_back();
    [end, iter.next(), iter.next(), iter.next(), iter.next_back()]
}

#[test]
fn iterators_meet_and_stay_at_the_end(rt: HostRuntime) -> Result<(), Fail> {
    let bits = BitVec::from(rt.alloc(), [true, false, true])?;
    let taken = [Some(true), Some(true), Some(false), None, None];
    assert!(rt; from_both_ends(bits) == taken);
    Ok(())
}
