//! Vectors and shared values.

use giputils::grc::Grc;
use giputils_refusing::Refusing;
use giputils_vec::gvec::Gvec;
use std::alloc::AllocError;
use std::ops::{Deref, DerefMut};
use std::test::Fail;

fn is_made(memory: &Refusing) -> bool {
    Gvec::from_array(memory, [1u32, 2]).is_ok()
}

fn is_collected(memory: &Refusing) -> bool {
    Gvec::from_iter(memory, [7u32, 8, 9]).is_ok()
}

fn is_filled_up(memory: &Refusing) -> bool {
    let Ok(mut list) = Gvec::from_array(memory, [1u32, 2]) else {
        return false;
    };
    list.reserve(5).is_ok()
}

fn is_copied(list: &Gvec<u32, &Refusing>) -> bool {
    let copy: Result<_, _> = list.clone();
    copy.is_ok()
}

fn is_cloned(memory: &Refusing) -> bool {
    match Gvec::from_array(memory, [1u32, 2]) {
        Ok(list) => is_copied(&list),
        Err(_) => false,
    }
}

// Whether a list of so many drawn numbers is made.
fn are_drawn(memory: &Refusing, count: usize) -> bool {
    let mut drawn = 0u32;
    let list = Gvec::new_rand(memory, count, &mut drawn, |drawn| {
        *drawn = drawn.wrapping_add(1);
        *drawn
    });
    list.is_ok()
}

fn is_shared(memory: &Refusing) -> bool {
    Grc::new(memory, 8u32).is_ok()
}

// Work that asks for memory: calls of a vector, or a value that is shared.
pub(crate) enum Work {
    FromArray,
    FromIter,
    Reserve,
    Clone,
    NewRand,
    Share,
}

// Whether the work was served.
pub(crate) fn is_served(work: &Work, memory: &Refusing) -> bool {
    match work {
        Work::FromArray => is_made(memory),
        Work::FromIter => is_collected(memory),
        Work::Reserve => is_filled_up(memory),
        Work::Clone => is_cloned(memory),
        Work::NewRand => are_drawn(memory, 3),
        Work::Share => is_shared(memory),
    }
}

// Moves and writes the items of a list of three, and takes one out.
fn rewrite(list: &mut Gvec<u32, &Refusing>) {
    if list.len() != 3 {
        return;
    }
    list.swap(0, 2);
    list[0u32] = 1;
    list[1i32] = 2;
    list[2usize] = 3;
    list.swap_remove(0);
    list.deref_mut().reverse();
}

// How many items are left of a list of three that is rewritten, and the first of them.
fn rewritten(memory: &Refusing) -> Result<(usize, Option<u32>), AllocError> {
    let mut list = Gvec::from(Vec::from_array(memory, [7u32, 8, 9])?);
    rewrite(&mut list);
    let len = list.deref().len();
    Ok((len, list.into_iter().next()))
}

#[test]
fn a_vector_is_used_in_place(rt: HostRuntime) -> Result<(), Fail> {
    let memory = Refusing::from(rt.alloc(), 2);
    assert!(rt; Gvec::<u32, &Refusing>::new(&memory).len() == 0);
    let left = rewritten(&memory)?;
    assert!(rt; (left, memory.requests()) == ((2, Some(2)), 1));
    Ok(())
}

fn is_filled_up_by_none(memory: &Refusing) -> bool {
    Gvec::<u32, &Refusing>::new(memory).reserve(0).is_ok()
}

#[test]
fn lists_of_no_items_take_no_memory(rt: HostRuntime) {
    let memory = Refusing::from(rt.alloc(), 1);
    let is_made = [
        is_filled_up_by_none(&memory),
        is_copied(&Gvec::new(&memory)),
        Gvec::<u32, _>::from_iter(&memory, []).is_ok(),
        are_drawn(&memory, 0),
    ];
    assert!(rt; (is_made, memory.requests()) == ([true; 4], 0));
    // std's array of no items is asked for as well, as a block of no bytes.
    assert!(rt; Gvec::<u32>::from_array(rt.alloc(), []).is_ok());
}

#[test]
fn a_shared_value_is_read_in_place(rt: HostRuntime) -> Result<(), Fail> {
    let memory = Refusing::from(rt.alloc(), 2);
    let owner = Grc::new(&memory, 8u32)?;
    assert!(rt; (*owner, memory.requests()) == (8, 1));
    Ok(())
}
