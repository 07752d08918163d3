//! How many requests a vector of more than 64 bits makes.

use giputils_bits::bitvec::BitVec;
use giputils_refusing::{Refusing, TurnFault, refuse_each, refuse_from_each};
use rand_core::Rng;
use rand_pcg::Pcg32;
use std::alloc::Global;

// What a new generator of these tests draws first.
const FIRST_DRAWN: u32 = 0xa15c_02b7;

// Calls that make a vector, or let one grow.
enum Call {
    FromElem,
    Zero,
    Ones,
    One,
    FromUsize,
    NewRand,
    From,
    FromBinaryText,
    Clone,
    Not,
    Resize,
    Append,
    Reserve,
    WithCapacity,
    Extend,
    Push,
    PushWord,
}

// Makes a vector of more than 64 bits, or makes a call that lets one grow. Tells whether no memory was refused.
fn is_made(memory: &Refusing, call: &Call) -> bool {
    let made = match call {
        Call::FromElem => BitVec::from_elem(memory, 129, true),
        Call::Zero => BitVec::zero(memory, 65),
        Call::Ones => BitVec::ones(memory, 65),
        Call::One => BitVec::one(memory, 65),
        Call::FromUsize => BitVec::from_usize(memory, 70, 5),
        Call::From => BitVec::from(memory, [true; 300]),
        Call::NewRand
        | Call::FromBinaryText
        | Call::WithCapacity
        | Call::Clone
        | Call::Not
        | Call::Append => return is_read_or_drawn(memory, call),
        Call::Reserve | Call::Extend | Call::Push | Call::PushWord | Call::Resize => {
            return is_grown(&mut BitVec::new(memory), call);
        }
    };
    made.is_ok()
}

fn is_read_or_drawn(memory: &Refusing, call: &Call) -> bool {
    match call {
        Call::NewRand => is_drawn(memory),
        Call::FromBinaryText => BitVec::from_binary_text(memory, &[b'1'; 300]).is_ok(),
        Call::WithCapacity => is_made_with_room(memory),
        Call::Clone | Call::Not => is_copied(memory, call),
        Call::Append => is_appended(memory),
        _ => false,
    }
}

// Where memory is refused, tells so only if nothing was drawn.
fn is_drawn(memory: &Refusing) -> bool {
    let mut rng = Pcg32::new(42, 54);
    BitVec::new_rand(memory, 2, &mut rng).is_ok() || rng.next_u32() != FIRST_DRAWN
}

// There is room for 200 bits at once.
fn is_made_with_room(memory: &Refusing) -> bool {
    match BitVec::with_capacity(memory, 200) {
        Ok(mut bits) => bits.resize(200, true).is_ok(),
        Err(_) => false,
    }
}

fn is_copied(memory: &Refusing, call: &Call) -> bool {
    match BitVec::ones(memory, 65) {
        Ok(bits) => is_copied_by(&bits, call),
        Err(_) => false,
    }
}

fn is_copied_by(bits: &BitVec<&Refusing>, call: &Call) -> bool {
    match call {
        Call::Clone => bits.clone().is_ok(),
        Call::Not => bits.not().is_ok(),
        _ => false,
    }
}

// A vector that is not aligned is appended to one of a full word.
fn is_appended(memory: &Refusing) -> bool {
    match BitVec::ones(memory, 63) {
        Ok(more) => is_appended_twice(&mut BitVec::new(memory), &more),
        Err(_) => false,
    }
}

fn is_appended_twice<'m>(bits: &mut BitVec<&'m Refusing>, more: &BitVec<&'m Refusing>) -> bool {
    bits.append(more).is_ok() && bits.append(more).is_ok()
}

// Lets a vector grow that is empty at first: by what was reserved after a bit, by more bits or a bit after a full
// word, by a word after a bit, or to greater lengths.
fn is_grown(bits: &mut BitVec<&Refusing>, call: &Call) -> bool {
    match call {
        Call::Reserve => is_reserved(bits),
        Call::Extend => bits.push_word(7).is_ok() && bits.extend([true; 200]).is_ok(),
        Call::Push => bits.push_word(7).is_ok() && bits.push(true).is_ok(),
        Call::PushWord => bits.push(true).is_ok() && bits.push_word(7).is_ok(),
        Call::Resize => is_resized(bits),
        _ => false,
    }
}

fn is_reserved(bits: &mut BitVec<&Refusing>) -> bool {
    bits.push(true).is_ok() && bits.reserve(199).is_ok() && bits.resize(200, true).is_ok()
}

fn is_resized(bits: &mut BitVec<&Refusing>) -> bool {
    bits.resize(64, true).is_ok()
        && bits.resize(1000, false).is_ok()
        && bits.resize(65, true).is_ok()
}

// How many requests such a call makes, each of which was refused in turn.
fn requests(alloc: Global, call: &Call) -> Result<u64, TurnFault> {
    let run = |memory: &Refusing| is_made(memory, call);
    match call {
        // An iterator that tells its length is one request. Where that is refused, another is made for a word.
        Call::From | Call::Extend => refuse_from_each(alloc, run),
        _ => refuse_each(alloc, run),
    }
}

#[test]
fn each_request_of_a_growing_vector_is_refused_in_turn(rt: HostRuntime) {
    for (name, call, wanted) in &[
        ("from_elem", Call::FromElem, 1),
        ("zero", Call::Zero, 1),
        ("ones", Call::Ones, 1),
        ("one", Call::One, 1),
        ("from_usize", Call::FromUsize, 1),
        ("new_rand", Call::NewRand, 1),
        ("from", Call::From, 1),
        ("from_binary_text", Call::FromBinaryText, 1),
        ("clone", Call::Clone, 2),
        ("not", Call::Not, 2),
        ("resize", Call::Resize, 1),
        ("append", Call::Append, 1),
        ("reserve", Call::Reserve, 1),
        ("with_capacity", Call::WithCapacity, 1),
        ("extend", Call::Extend, 1),
        ("push", Call::Push, 1),
        ("push_word", Call::PushWord, 1),
    ] {
        assert!(rt; requests(rt.alloc(), call) == Ok(*wanted), "{name}");
    }
}

fn is_filled(memory: &Refusing, len: usize) -> bool {
    BitVec::from_elem(memory, len, true).is_ok()
}

fn is_rand(memory: &Refusing, num_word: usize, rng: &mut Pcg32) -> bool {
    BitVec::new_rand(memory, num_word, rng).is_ok()
}

#[test]
fn the_greatest_length_is_one_request(rt: HostRuntime) {
    let memory = Refusing::from(rt.alloc(), 1);
    let is_made = is_filled(&memory, usize::MAX);
    assert!(rt; (is_made, memory.requests(), memory.largest()) == (false, 1, 1 << 61));
}

#[test]
fn the_most_words_are_one_request_before_anything_is_drawn(rt: HostRuntime) {
    let memory = Refusing::from(rt.alloc(), 1);
    let mut rng = Pcg32::new(42, 54);
    let is_made = is_rand(&memory, (1 << 58) - 1, &mut rng);
    assert!(rt;
        (is_made, memory.requests(), memory.largest(), rng.next_u32())
            == (false, 1, (1 << 61) - 8, FIRST_DRAWN)
    );
}

#[test]
fn a_length_that_no_usize_is_asks_for_nothing(rt: HostRuntime) {
    let memory = Refusing::from(rt.alloc(), 1);
    let is_made = is_rand(&memory, 1 << 58, &mut Pcg32::new(42, 54));
    assert!(rt; (is_made, memory.requests()) == (false, 0));
}
