//! What a vector feeds a hasher, and vectors in a set.

use giputils_bits::bitvec::{BitVec, BitVecError};
use giputils_hash::hash::GHashSet;
use std::alloc::Global;
use std::hash::{DefaultHasher, Hash, Hasher};
use std::test::Fail;

// The hash of so many true places.
fn hash(alloc: Global, len: usize) -> Result<u64, BitVecError> {
    let bits = BitVec::from_elem(alloc, len, true)?;
    let mut hasher = DefaultHasher::new();
    bits.hash(&mut hasher);
    Ok(hasher.finish())
}

// The hash of the bytes of the words and then of the length modulo 64, each with its lowest byte first.
fn hash_of(words: &[u64], len: usize) -> u64 {
    let mut hasher = DefaultHasher::new();
    for word in words {
        hasher.write(&word.to_le_bytes());
    }
    hasher.write(&(len % 64).to_le_bytes());
    hasher.finish()
}

// Whether a vector of true places feeds a hasher these words and then its length modulo 64, and no more.
fn feeds(alloc: Global, len: usize, words: &[u64]) -> Result<bool, BitVecError> {
    Ok(hash(alloc, len)? == hash_of(words, len))
}

#[test]
fn a_hasher_is_fed_the_words_and_then_the_length(rt: HostRuntime) {
    let rows: &[(usize, &[u64], bool)] = &[
        (0, &[], true),
        (1, &[1], true),
        (63, &[u64::MAX >> 1], true),
        (64, &[u64::MAX], true),
        (65, &[u64::MAX, 1], true),
        (128, &[u64::MAX, u64::MAX], true),
        (130, &[u64::MAX, u64::MAX, 3], true),
        (130, &[u64::MAX, 3, u64::MAX], false),
    ];
    for &(len, words, is_fed) in rows {
        assert!(rt; feeds(rt.alloc(), len, words) == Ok(is_fed), "{len} bits");
    }
}

// A vector of one word, that was pushed.
fn word(alloc: Global) -> Result<BitVec, BitVecError> {
    let mut bits = BitVec::new(alloc);
    match bits.push_word(u64::MAX) {
        Ok(()) => Ok(bits),
        Err(error) => Err(error),
    }
}

// Two equal vectors, made in two ways.
fn equal(alloc: Global) -> Result<[BitVec; 2], BitVecError> {
    Ok([BitVec::ones(alloc, 64)?, word(alloc)?])
}

// How many members a set of the two has.
fn members(alloc: Global, two: [BitVec; 2]) -> Option<usize> {
    match GHashSet::from_iter(alloc, two) {
        Ok(set) => Some(set.len()),
        Err(_) => None,
    }
}

#[test]
fn equal_vectors_are_one_member_of_a_set(rt: HostRuntime) -> Result<(), Fail> {
    let count = members(rt.alloc(), equal(rt.alloc())?);
    assert!(rt; count == Some(1));
    Ok(())
}
