//! What stands in a vector that was refused memory as it grew.

use giputils_bits::bitvec::BitVec;
use giputils_refusing::{Refusing, TurnFault, refuse_each, refuse_from_each};
use std::alloc::Global;
use std::test::Fail;

// The three bits that a vector begins with.
const FIRST: usize = 0b101;

// Then come these 64 bits, again and again, whose last three are the first three: so each full word is `FULL`.
const ITEMS: usize = 0xa123_4567_89ab_cdef;

const FULL: u64 = 0x091a_2b3c_4d5e_6f7d;

// How often the 64 bits come.
const TIMES: usize = 9;

// The vector that has the first three bits alone.
fn first(memory: &Refusing) -> BitVec<&Refusing> {
    let mut bits = BitVec::new(memory);
    for &bit in &[true, false, true] {
        if bits.push(bit).is_err() {
            break;
        }
    }
    bits
}

// Whether these are the first `len` of the bits.
fn stands(bits: &BitVec<&Refusing>, len: usize) -> bool {
    if bits.len() != len {
        return false;
    }
    for (k, word) in bits.words().iter().enumerate() {
        let wanted = if k < len / 64 { FULL } else { FIRST as u64 };
        if *word != wanted {
            return false;
        }
    }
    true
}

// Where a bit is refused, tells so only if those before it stand.
fn is_pushed(memory: &Refusing) -> bool {
    let mut bits = first(memory);
    for time in 0..TIMES {
        for i in 0..64_u32 {
            if bits.push((ITEMS >> i) % 2 == 1).is_err() {
                return i != 61 || !stands(&bits, 64 * time + 64);
            }
        }
    }
    stands(&bits, 64 * TIMES + 3)
}

// Where a word is refused, tells so only if the words before it stand.
fn is_word_pushed(memory: &Refusing) -> bool {
    let mut bits = first(memory);
    for time in 0..TIMES {
        if bits.push_word(ITEMS as u64).is_err() {
            return !stands(&bits, 64 * time + 3);
        }
    }
    stands(&bits, 64 * TIMES + 3)
}

// Where the items of an `extend` are refused, tells so only if those stand that fill the last word.
fn is_extended_by<'m>(bits: &mut BitVec<&'m Refusing>, items: &BitVec<&'m Refusing>) -> bool {
    for time in 0..TIMES {
        if bits.extend(items).is_err() {
            return !stands(bits, 64 * time + 64);
        }
    }
    stands(bits, 64 * TIMES + 3)
}

fn is_extended(memory: &Refusing) -> bool {
    match BitVec::from_usize(memory, 64, ITEMS) {
        Ok(items) => is_extended_by(&mut first(memory), &items),
        Err(_) => false,
    }
}

// How a vector grows.
enum Growth {
    Push,
    PushWord,
    Extend,
}

fn is_grown(memory: &Refusing, growth: &Growth) -> bool {
    match growth {
        Growth::Push => is_pushed(memory),
        Growth::PushWord => is_word_pushed(memory),
        Growth::Extend => is_extended(memory),
    }
}

// How many requests a growing vector makes, each of which was refused in turn.
fn requests(alloc: Global, growth: &Growth) -> Result<u64, TurnFault> {
    let run = |memory: &Refusing| is_grown(memory, growth);
    match growth {
        Growth::Extend => refuse_from_each(alloc, run),
        _ => refuse_each(alloc, run),
    }
}

// How often a growing vector asks is open, but it is oftener than once.
#[test]
fn what_came_before_a_refusal_stands(rt: HostRuntime) {
    for (call, growth) in &[
        ("push", Growth::Push),
        ("push_word", Growth::PushWord),
        ("extend", Growth::Extend),
    ] {
        let outcome = requests(rt.alloc(), growth);
        assert!(rt;
            outcome.is_ok_and(|requests| requests > 1),
            "{call}: {outcome:?}"
        );
    }
}

#[test]
fn a_vector_stands_where_its_clone_is_refused(rt: HostRuntime) -> Result<(), Fail> {
    let memory = Refusing::from(rt.alloc(), 2);
    let bits = BitVec::ones(&memory, 65)?;
    assert!(rt; (bits.clone().is_ok(), memory.requests()) == (false, 2));
    assert!(rt; bits.words() == [u64::MAX, 1].as_slice());
    Ok(())
}

#[test]
fn one_word_stands_where_the_next_is_refused(rt: HostRuntime) -> Result<(), Fail> {
    let memory = Refusing::from(rt.alloc(), 1);
    let mut bits = BitVec::new(&memory);
    bits.push_word(7)?;
    assert!(rt; (bits.push_word(9).is_ok(), memory.requests()) == (false, 1));
    assert!(rt; (bits.len(), bits.to_usize()) == (64, 7));
    Ok(())
}
