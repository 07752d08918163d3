//! Calls that ask for no memory.

use giputils_bits::bitvec::{BitVec, BitVecError};
use giputils_refusing::Refusing;
use rand_pcg::Pcg32;
use std::hash::{DefaultHasher, Hash};
use std::test::Fail;

fn is_copied(bits: &BitVec<&Refusing>) -> bool {
    bits.clone().is_ok() && bits.not().is_ok()
}

fn is_filled_and_copied(memory: &Refusing, len: usize) -> bool {
    match BitVec::from_elem(memory, len, true) {
        Ok(bits) => is_copied(&bits),
        Err(_) => false,
    }
}

// Makes vectors of this length in each way that takes one, and a copy.
fn are_made(memory: &Refusing, len: usize) -> bool {
    is_filled_and_copied(memory, len) && BitVec::from_usize(memory, len, 5).is_ok()
}

#[test]
fn up_to_64_bits_are_made_without_memory(rt: HostRuntime) {
    let memory = Refusing::from(rt.alloc(), 1);
    for &len in &[0, 1, 63, 64] {
        assert!(rt; are_made(&memory, len), "{len} bits");
    }
    assert!(rt; BitVec::new_rand(&memory, 1, &mut Pcg32::new(42, 54)).is_ok());
    assert!(rt; BitVec::from(&memory, [true, false]).is_ok());
    assert!(rt; memory.requests() == 0);
}

// Pushes up to 64 bits, by a word or one by one.
fn push_up_to_64(bits: &mut BitVec<&Refusing>) -> Result<(), BitVecError> {
    bits.push_word(7)?;
    bits.clear();
    for _ in 0..63 {
        bits.push(true)?;
    }
    bits.extend([false])
}

// How many bits there are where some are pushed.
fn pushed(memory: &Refusing) -> Option<usize> {
    let mut bits = BitVec::new(memory);
    match push_up_to_64(&mut bits) {
        Ok(()) => Some(bits.len()),
        Err(_) => None,
    }
}

#[test]
fn up_to_64_bits_are_pushed_without_memory(rt: HostRuntime) {
    let memory = Refusing::from(rt.alloc(), 1);
    assert!(rt; (pushed(&memory), memory.requests()) == (Some(64), 0));
}

// Makes each call that reads a vector of `len` times true. Tells whether the answers were right.
fn is_read(bits: &BitVec<&Refusing>, len: usize) -> bool {
    let first = (len > 0).then_some(true);
    bits.hash(&mut DefaultHasher::new());
    bits.len() == len
        && bits.words().len() == bits.word_len()
        && bits.is_empty() == (len == 0)
        && bits.try_bool().is_some() == (len == 1)
        && *bits == *bits
        && bits.iter().len() == len
        && bits.iter().next() == first
        && bits.iter().next_back() == first
}

// Sets the last bit of a vector that is true everywhere. Tells whether the answers were right.
fn is_set(bits: &mut BitVec<&Refusing>) -> bool {
    let len = bits.len();
    if len == 0 {
        return true;
    }
    let right = bits.is_ones() && !bits.is_zero() && bits.is_one() == (len == 1);
    bits.set(len - 1, false);
    right && !bits.get(len - 1)
}

fn is_word_pushed(bits: &mut BitVec<&Refusing>) -> bool {
    bits.clear();
    bits.push_word(7).is_ok() && bits.to_usize() == 7
}

// Clears a vector and pushes a word. Tells whether the answers were right.
fn is_refilled(mut bits: BitVec<&Refusing>) -> bool {
    let is_pushed = is_word_pushed(&mut bits);
    bits.into_iter().next() == Some(true) && is_pushed
}

// Makes a vector of `len` times true, and then each call on it that takes no memory. Tells whether the answers were
// right.
fn is_used(memory: &Refusing, len: usize) -> bool {
    match BitVec::from_elem(memory, len, true) {
        Ok(mut bits) => {
            let is_right = is_read(&bits, len) && is_set(&mut bits);
            is_refilled(bits) && is_right
        }
        Err(_) => false,
    }
}

#[test]
fn a_vector_is_used_in_place(rt: HostRuntime) {
    for &(len, requests) in &[(0, 0), (1, 0), (64, 0), (65, 1)] {
        let memory = Refusing::from(rt.alloc(), requests + 1);
        let outcome = (is_used(&memory, len), memory.requests());
        assert!(rt; outcome == (true, requests), "{len} bits");
    }
}

fn is_anded<'m>(bits: &mut BitVec<&'m Refusing>, other: &BitVec<&'m Refusing>) -> bool {
    if bits.len() != other.len() {
        return false;
    }
    *bits &= other;
    *bits == *other
}

fn is_ored<'m>(bits: &mut BitVec<&'m Refusing>, other: &BitVec<&'m Refusing>) -> bool {
    if bits.len() != other.len() {
        return false;
    }
    *bits |= other;
    *bits == *other
}

fn is_xored<'m>(bits: &mut BitVec<&'m Refusing>, other: &BitVec<&'m Refusing>) -> bool {
    if bits.len() != other.len() {
        return false;
    }
    *bits ^= other;
    bits.none()
}

// Two vectors of `len` places, each the same everywhere.
fn two_filled(
    memory: &Refusing,
    len: usize,
    first: bool,
    second: bool,
) -> Result<(BitVec<&Refusing>, BitVec<&Refusing>), BitVecError> {
    let bits = BitVec::from_elem(memory, len, first)?;
    let other = BitVec::from_elem(memory, len, second)?;
    Ok((bits, other))
}

// Joins a vector with another in each way. Tells whether the answers were right.
fn is_joined_in_each_way<'m>(
    bits: &mut BitVec<&'m Refusing>,
    other: &BitVec<&'m Refusing>,
) -> bool {
    is_anded(bits, other) && is_ored(bits, other) && is_xored(bits, other)
}

// Joins two vectors of `len` times true.
fn is_joined(memory: &Refusing, len: usize) -> bool {
    match two_filled(memory, len, true, true) {
        Ok((mut bits, other)) => is_joined_in_each_way(&mut bits, &other),
        Err(_) => false,
    }
}

#[test]
fn vectors_are_joined_in_place(rt: HostRuntime) {
    for &(len, requests) in &[(0, 0), (1, 0), (64, 0), (65, 2)] {
        let memory = Refusing::from(rt.alloc(), requests + 1);
        let outcome = (is_joined(&memory, len), memory.requests());
        assert!(rt; outcome == (true, requests), "{len} bits");
    }
}

// Clears a vector, and pushes 65 bits.
fn is_grown_once_cleared(bits: &mut BitVec<&Refusing>) -> bool {
    bits.clear();
    bits.push_word(7).is_ok() && bits.push(true).is_ok()
}

#[test]
fn a_cleared_vector_keeps_its_memory(rt: HostRuntime) -> Result<(), Fail> {
    let memory = Refusing::from(rt.alloc(), 2);
    let mut bits = BitVec::ones(&memory, 65)?;
    let is_grown = is_grown_once_cleared(&mut bits);
    assert!(rt; (is_grown, memory.requests()) == (true, 1));
    Ok(())
}

fn xored<'m>(
    bits: BitVec<&'m Refusing>,
    other: &BitVec<&'m Refusing>,
) -> Option<BitVec<&'m Refusing>> {
    if bits.len() != other.len() {
        return None;
    }
    Some(bits ^ other)
}

// Either of the two. None unless it is true everywhere.
fn ored<'m>(
    bits: BitVec<&'m Refusing>,
    other: &BitVec<&'m Refusing>,
) -> Option<BitVec<&'m Refusing>> {
    if bits.len() != other.len() {
        return None;
    }
    let either = bits | other;
    if either.all() { Some(either) } else { None }
}

// Both of the two. None unless it is false everywhere.
fn anded<'m>(
    bits: BitVec<&'m Refusing>,
    other: &BitVec<&'m Refusing>,
) -> Option<BitVec<&'m Refusing>> {
    if bits.len() != other.len() {
        return None;
    }
    let both = bits & other;
    if both.none() { Some(both) } else { None }
}

// Neither of the two, and negated again in place.
fn ored_twice_negated<'m>(
    bits: BitVec<&'m Refusing>,
    other: BitVec<&'m Refusing>,
) -> Option<BitVec<&'m Refusing>> {
    if bits.len() != other.len() {
        return None;
    }
    let mut bits = !(bits | other);
    bits.negate();
    Some(bits)
}

// Joins a vector that is true everywhere with one that is false everywhere, which is lent three times.
fn joined_with_lent<'m>(
    bits: BitVec<&'m Refusing>,
    other: &BitVec<&'m Refusing>,
) -> Option<BitVec<&'m Refusing>> {
    anded(ored(xored(bits, other)?, other)?, other)
}

// Joins the two, the right side lent three times, and then by value. Tells whether the answer was right.
fn is_none_of_two<'m>(bits: BitVec<&'m Refusing>, other: BitVec<&'m Refusing>, len: usize) -> bool {
    let Some(both) = joined_with_lent(bits, &other) else {
        return false;
    };
    match ored_twice_negated(both, other) {
        Some(bits) => bits.none() && bits.len() == len,
        None => false,
    }
}

// Joins two vectors of `len` places by value, the right side false everywhere.
fn is_joined_by_value(memory: &Refusing, len: usize) -> bool {
    match two_filled(memory, len, true, false) {
        Ok((bits, other)) => is_none_of_two(bits, other, len),
        Err(_) => false,
    }
}

#[test]
fn vectors_are_joined_by_value_without_memory(rt: HostRuntime) {
    for &(len, requests) in &[(0, 0), (64, 0), (65, 2)] {
        let memory = Refusing::from(rt.alloc(), requests + 1);
        let outcome = (is_joined_by_value(&memory, len), memory.requests());
        assert!(rt; outcome == (true, requests), "{len} bits");
    }
}

// Writes to a vector of 66 places in each way.
fn write_in_each_way<'m>(bits: &mut BitVec<&'m Refusing>, zeros: &BitVec<&'m Refusing>) {
    if bits.len() != 66 || zeros.len() != 66 {
        return;
    }
    bits.flip(65);
    bits.put(0, true);
    bits.negate();
    bits.set_word(1, 6);
    bits.fill(true);
    if bits.len() == zeros.len() {
        bits.copy_from(zeros);
    }
}

// Whether a vector that is written to in each way is zero then.
fn is_written(memory: &Refusing) -> bool {
    match two_filled(memory, 66, false, false) {
        Ok((mut bits, zeros)) => {
            write_in_each_way(&mut bits, &zeros);
            bits == zeros
        }
        Err(_) => false,
    }
}

#[test]
fn a_vector_is_written_without_memory(rt: HostRuntime) {
    let memory = Refusing::from(rt.alloc(), 3);
    assert!(rt; (is_written(&memory), memory.requests()) == (true, 2));
}

// Takes the last of some true places away, and pushes one again.
fn is_shortened_in_each_way(bits: &mut BitVec<&Refusing>) -> bool {
    bits.truncate(65);
    let last = bits.pop();
    let is_pushed = bits.push(false).is_ok();
    bits.truncate(0);
    (last, is_pushed, bits.pop()) == (Some(true), true, None)
}

fn is_shortened(memory: &Refusing) -> bool {
    match BitVec::from_elem(memory, 130, true) {
        Ok(mut bits) => is_shortened_in_each_way(&mut bits),
        Err(_) => false,
    }
}

#[test]
fn the_last_bits_are_taken_away_without_memory(rt: HostRuntime) {
    let memory = Refusing::from(rt.alloc(), 2);
    assert!(rt; (is_shortened(&memory), memory.requests()) == (true, 1));
}
