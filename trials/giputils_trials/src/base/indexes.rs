//! Allocators of indexes, and lists of their calls.

use giputils_index::allocator::{GallocCall, GallocElem, GallocReply, Gallocator, galloc_run};
use giputils_refusing::Refusing;
use giputils_vec::gvec::Gvec;
use std::alloc::{AllocError, Global};
use std::ops::{Deref, DerefMut};
use std::process::Abort;
use std::test::Fail;

type Slots<'a> = Gallocator<u32, &'a Refusing>;

// Puts three values into slots that are lent: so a value that is refused drops nothing here.
fn put_three(slots: &mut Slots<'_>) -> Result<(), u32> {
    slots.alloc(10)?;
    slots.alloc(20)?;
    slots.alloc(30)?;
    Ok(())
}

fn three_slots(memory: &Refusing) -> Result<Slots<'_>, u32> {
    let mut slots = Slots::new(memory);
    put_three(&mut slots)?;
    Ok(slots)
}

// Collects three slots, of which the first is marked.
fn is_collected(slots: &mut Slots<'_>) -> bool {
    if put_three(slots).is_err() {
        return false;
    }
    if slots.len() == 3 {
        slots.dealloc(0);
    }
    slots.gc().is_ok()
}

fn are_collected(memory: &Refusing) -> bool {
    is_collected(&mut Slots::new(memory))
}

fn is_tabled(slots: &mut Slots<'_>) -> bool {
    put_three(slots).is_ok() && slots.gc_table().is_ok()
}

fn are_tabled(memory: &Refusing) -> bool {
    is_tabled(&mut Slots::new(memory))
}

fn is_more_room_made(slots: Slots<'_>) -> bool {
    slots.into_reserved().reserve(9).is_ok()
}

fn is_room_made(memory: &Refusing) -> bool {
    let mut slots = Slots::new(memory);
    if slots.reserve(3).is_err() {
        return false;
    }
    is_more_room_made(slots)
}

fn are_allocated(memory: &Refusing) -> bool {
    three_slots(memory).is_ok()
}

const CALLS: [GallocCall<u32>; 11] = [
    GallocCall::Alloc(10),
    GallocCall::Alloc(20),
    GallocCall::Alloc(30),
    GallocCall::Dealloc(0),
    GallocCall::Gc,
    GallocCall::Read(0),
    GallocCall::Write(1, 5),
    GallocCall::Read(1),
    GallocCall::IsRemoved(2),
    GallocCall::Len,
    GallocCall::Gc,
];

type Reply<'a> = GallocReply<u32, &'a Refusing>;

// The reply, where it is no map.
fn text(reply: &Reply<'_>) -> (&'static str, usize) {
    match reply {
        GallocReply::Index(index) => ("index", *index),
        GallocReply::Done => ("done", 0),
        GallocReply::Flag(marked) => ("flag", usize::from(*marked)),
        GallocReply::Value(value) => ("value", *value as usize),
        GallocReply::Map(indexes) => ("map", indexes.len()),
        GallocReply::Length(len) => ("length", *len),
        GallocReply::Refused => ("refused", 0),
        GallocReply::Skipped => ("skipped", 0),
    }
}

// Whether these are the replies, each by its text.
fn are_texts(replies: &[Reply<'_>], answers: &[(&'static str, usize)]) -> bool {
    if replies.len() != answers.len() {
        return false;
    }
    for (reply, answer) in replies.iter().zip(answers) {
        if text(reply) != *answer {
            return false;
        }
    }
    true
}

// Whether a run of the calls is answered so.
fn is_answered(
    memory: &Refusing,
    calls: &[GallocCall<u32>],
    answers: &[(&'static str, usize)],
) -> bool {
    match galloc_run(memory, calls) {
        Ok((_, replies)) => are_texts(&replies, answers),
        Err(_) => false,
    }
}

// A run with one refused call was not served. One with more of them passes for served, which the driver tells of: a
// call that was not refused memory may not be answered so.
fn is_run(memory: &Refusing) -> bool {
    match galloc_run(memory, &CALLS) {
        Ok((_, replies)) => refused_calls(&replies) != 1,
        Err(_) => false,
    }
}

fn refused_calls(replies: &[Reply<'_>]) -> usize {
    let mut refused = 0usize;
    for reply in replies {
        if matches!(reply, GallocReply::Refused) {
            refused = refused.saturating_add(1);
        }
    }
    refused
}

// Work that asks for memory: calls of an allocator, or a list of them.
pub(crate) enum Work {
    Alloc,
    Gc,
    GcTable,
    Reserve,
    Run,
}

// Whether the work was served.
pub(crate) fn is_served(work: &Work, memory: &Refusing) -> bool {
    match work {
        Work::Alloc => are_allocated(memory),
        Work::Gc => are_collected(memory),
        Work::GcTable => are_tabled(memory),
        Work::Reserve => is_room_made(memory),
        Work::Run => is_run(memory),
    }
}

#[test]
fn a_run_asks_for_its_list_of_replies_first(rt: HostRuntime) {
    let memory = Refusing::nth(rt.alloc(), 1);
    assert!(rt; galloc_run(&memory, &CALLS).is_err());
    assert!(rt; memory.requests() == 1);
}

const TWO_COLLECTIONS: [GallocCall<u32>; 6] = [
    GallocCall::Alloc(10),
    GallocCall::Alloc(20),
    GallocCall::Dealloc(0),
    GallocCall::Gc,
    GallocCall::Gc,
    GallocCall::Len,
];

// The first call asks for room for both values, and the first collection asks next.
#[test]
fn a_run_goes_on_after_a_refused_call(rt: HostRuntime) {
    let first_value = &[
        ("refused", 0usize),
        ("index", 0),
        ("done", 0),
        ("map", 0),
        ("map", 0),
        ("length", 0),
    ];
    let memory = Refusing::nth(rt.alloc(), 2);
    assert!(rt; is_answered(&memory, &TWO_COLLECTIONS, first_value));
    let first_collection = &[
        ("index", 0usize),
        ("index", 1),
        ("done", 0),
        ("refused", 0),
        ("map", 1),
        ("length", 1),
    ];
    let memory = Refusing::nth(rt.alloc(), 3);
    assert!(rt; is_answered(&memory, &TWO_COLLECTIONS, first_collection));
}

#[test]
fn an_allocator_of_no_slots_is_collected_in_place(rt: HostRuntime) {
    let memory = Refusing::from(rt.alloc(), 2);
    assert!(rt; is_answered(&memory, &[GallocCall::Gc], &[("map", 0)]));
    assert!(rt; is_answered(&memory, &[], &[]));
    assert!(rt; memory.requests() == 1);
}

// How many requests three slots make.
fn requests_of_three_slots(alloc: Global) -> Result<u64, u32> {
    let memory = Refusing::none(alloc);
    drop(three_slots(&memory)?);
    Ok(memory.requests())
}

// Marks the second of three slots, whose collection is refused.
fn refuse_collection(rt: &impl Abort, slots: &mut Slots<'_>) {
    assert!(rt; is_marked(slots, 1));
    assert!(rt; slots.gc().is_err());
    assert!(rt; first_two(slots) == Some((10, 20, true)));
}

// Collects slots. Tells how many are left, and the new indexes of the first and the last of three.
fn collected(slots: &mut Slots<'_>) -> Result<(usize, [Option<usize>; 2]), AllocError> {
    let indexes = slots.gc()?;
    let moved = [indexes.get(&0).copied(), indexes.get(&2).copied()];
    Ok((indexes.len(), moved))
}

// Collects three slots, once refused and then served.
fn collected_again(
    rt: &impl Abort,
    memory: &Refusing,
) -> Result<(usize, [Option<usize>; 2]), Fail> {
    let mut slots = three_slots(memory)?;
    refuse_collection(rt, &mut slots);
    Ok(collected(&mut slots)?)
}

#[test]
fn a_refused_collection_can_be_made_again(rt: HostRuntime) -> Result<(), Fail> {
    let requests = requests_of_three_slots(rt.alloc())?;
    let memory = Refusing::nth(rt.alloc(), requests.saturating_add(1));
    assert!(rt; collected_again(&rt, &memory)? == (2, [Some(0), Some(1)]));
    Ok(())
}

// How many entries the table of three slots has, and how many requests it makes.
fn tabled(memory: &Refusing, slots: &mut Slots<'_>) -> Result<(usize, u64), Fail> {
    put_three(slots)?;
    let before = memory.requests();
    let entries = slots.gc_table()?.len();
    Ok((entries, memory.requests().saturating_sub(before)))
}

#[test]
fn a_table_is_asked_for_once(rt: HostRuntime) -> Result<(), Fail> {
    let memory = Refusing::none(rt.alloc());
    let table = tabled(&memory, &mut Slots::new(&memory))?;
    assert!(rt; table == (3, 1));
    Ok(())
}

// Whether the slot is there, whose value is this one then.
fn is_written(slots: &mut Slots<'_>, index: usize, value: u32) -> bool {
    if index >= slots.len() {
        return false;
    }
    slots[index] = value;
    true
}

// The same by an index of 32 bits.
fn is_written_short(slots: &mut Slots<'_>, index: u32, value: u32) -> bool {
    if index as usize >= slots.len() {
        return false;
    }
    slots[index] = value;
    true
}

// Whether the slot is there, which is marked then.
fn is_marked(slots: &mut Slots<'_>, index: usize) -> bool {
    if index >= slots.len() {
        return false;
    }
    slots.dealloc(index);
    true
}

// The values of the first two of three slots, and whether the second is marked.
fn first_two(slots: &Slots<'_>) -> Option<(u32, u32, bool)> {
    if slots.len() != 3 {
        return None;
    }
    Some((slots[0usize], slots[1u32], slots.is_removed(1)))
}

// Writes two of three slots, and marks one of them. Tells what is read then.
fn write_two(slots: &mut Slots<'_>) -> Option<(u32, u32, bool)> {
    if is_written(slots, 0, 5) && is_written_short(slots, 1, 6) && is_marked(slots, 1) {
        first_two(slots)
    } else {
        None
    }
}

fn write_two_of_three(memory: &Refusing) -> Result<Option<(u32, u32, bool)>, u32> {
    let mut slots = three_slots(memory)?;
    Ok(write_two(&mut slots))
}

#[test]
fn slots_are_marked_read_and_written_in_place(rt: HostRuntime) -> Result<(), Fail> {
    let requests = requests_of_three_slots(rt.alloc())?;
    let memory = Refusing::from(rt.alloc(), requests.saturating_add(1));
    assert!(rt; write_two_of_three(&memory) == Ok(Some((5, 6, true))));
    assert!(rt; memory.requests() == requests);
    assert!(rt; Slots::new(&memory).len() == 0);
    Ok(())
}

// The value of the second of three slots, taken out.
fn taken(slots: &mut Slots<'_>) -> Option<u32> {
    if slots.len() != 3 {
        return None;
    }
    Some(slots.take_out(1, 0))
}

fn last_live(slots: &Slots<'_>) -> Option<(usize, u32)> {
    let (index, value) = slots.iter().last()?;
    Some((index, *value))
}

// Takes out the second of three values. Tells it, how many others are left, whether it is gone, and the last of them.
fn seen_once_taken(slots: &mut Slots<'_>) -> ((Option<u32>, usize, bool), Option<(usize, u32)>) {
    let value = taken(slots);
    let seen = (value, slots.live_len(), slots.get(1).is_none());
    (seen, last_live(slots))
}

#[test]
fn slots_are_taken_and_walked_in_place(rt: HostRuntime) -> Result<(), Fail> {
    let memory = Refusing::none(rt.alloc());
    let mut slots = three_slots(&memory)?;
    let before = memory.requests();
    let seen = seen_once_taken(&mut slots);
    assert!(rt; (seen, memory.requests()) == (((Some(20), 2, true), Some((2, 30))), before));
    Ok(())
}

// Puts two values into slots, and asks for room for three first.
fn put_two_with_room(slots: &mut Slots<'_>) -> Result<(), Fail> {
    slots.reserve(3)?;
    slots.alloc(10)?;
    slots.alloc(20)?;
    Ok(())
}

// Puts a value into slots with room ahead. Tells its index, and how many slots there are then.
fn put_ahead(slots: Slots<'_>) -> Result<(usize, usize), AllocError> {
    let mut room = slots.into_reserved();
    room.reserve(1)?;
    let index = room.alloc_reserved(30);
    Ok((index, room.finish().len()))
}

#[test]
fn values_with_room_ahead_take_no_memory(rt: HostRuntime) -> Result<(), Fail> {
    let memory = Refusing::from(rt.alloc(), 2);
    let mut slots = Slots::new(&memory);
    put_two_with_room(&mut slots)?;
    let ahead = put_ahead(slots)?;
    assert!(rt; (ahead, memory.requests()) == ((2, 3), 1));
    Ok(())
}

// Takes one of two numbers out of an element. Tells whether it is removed, and how many numbers it has, lent and taken.
fn seen_of_an_element(memory: &Refusing) -> Result<(bool, usize, usize), AllocError> {
    let mut element = GallocElem::new(Gvec::from_array(memory, [1u32, 2])?);
    element.deref_mut().swap_remove(0);
    let lent = (element.is_removed(), element.deref().len());
    Ok((lent.0, lent.1, element.take().len()))
}

#[test]
fn an_element_keeps_its_value_in_place(rt: HostRuntime) -> Result<(), Fail> {
    let memory = Refusing::from(rt.alloc(), 2);
    assert!(rt; seen_of_an_element(&memory)? == (false, 1, 1));
    assert!(rt; memory.requests() == 1);
    Ok(())
}
