//! The calls of a heap at concrete types, and how often they ask the comparer.

use crate::heap::comparers::{Circle, Constant};
use crate::heap::rows::{LAWLESS, LISTS};
use giputils_heap::{BinaryHeap, BinaryHeapCmp, ByNumber, ByRank, Counting};
use std::alloc::{AllocError, Global};
use std::cell::Cell;
use std::cmp::Reverse;
use std::test::Fail;

/// A call of a heap.
pub(crate) enum Call {
    Push(u8),
    PushOrUpdate(u8),
    Pop,
    Remove(u8),
    Up(u8),
    Down(u8),
    Update(u8),
    Rebuild,
    Clear,
    Len,
    IsEmpty,
    Peek,
    Contains(u8),
}

/// The reply to a call.
#[derive(Drop, PartialEq)]
pub(crate) enum Reply {
    Done,
    Refused,
    Key(Option<u8>),
    Length(usize),
    Flag(bool),
}

/// The comparer that a part of a list is lent.
pub(crate) enum Order {
    Number,
    Reversed,
    Ranks(&'static [u32]),
}

/// How often a call asks the comparer.
pub(crate) enum Asks {
    AtMost(u64),
    Exactly(u64),
}

impl Asks {
    fn allows(&self, count: u64) -> bool {
        match *self {
            Asks::AtMost(most) => count <= most,
            Asks::Exactly(wanted) => count == wanted,
        }
    }
}

/// A call, its reply, and how often it asks the comparer.
pub(crate) type Row = (Call, Reply, Asks);

// Compares as the comparer inside does, and counts in a cell how often it is asked.
#[derive(Drop)]
struct Asked<'a, C> {
    cmp: &'a C,
    count: Cell<u64>,
}

impl<C: BinaryHeapCmp<u8>> BinaryHeapCmp<u8> for Asked<'_, C> {
    ghost at_least = { λ c. C.at_least c.cmp.now };

    fn gte(&self, s: u8, o: u8) -> bool {
        self.count.set(self.count.get().wrapping_add(1));
        self.cmp.gte(s, o)
    }
}

fn reply_to_push(outcome: Result<(), AllocError>) -> Reply {
    match outcome {
        Ok(()) => Reply::Done,
        Err(_) => Reply::Refused,
    }
}

// The reply to a call that is lent no comparer. The others do nothing.
fn look(heap: &BinaryHeap<u8>, call: &Call) -> Reply {
    match *call {
        Call::Len => Reply::Length(heap.len()),
        Call::IsEmpty => Reply::Flag(heap.is_empty()),
        Call::Peek => Reply::Key(heap.peek()),
        Call::Contains(key) => Reply::Flag(heap.contains(key)),
        _ => Reply::Done,
    }
}

// Makes a call that moves keys or lets them go. The others do nothing.
fn repair<C: BinaryHeapCmp<u8>>(heap: &mut BinaryHeap<u8>, call: &Call, cmp: &C) {
    match *call {
        Call::Up(key) => heap.up(key, cmp),
        Call::Down(key) => heap.down(key, cmp),
        Call::Update(key) => heap.update(key, cmp),
        Call::Rebuild => heap.rebuild(cmp),
        Call::Clear => heap.clear(),
        _ => (),
    }
}

// The reply to a call that is lent the comparer itself.
fn plain_reply<C: BinaryHeapCmp<u8>>(heap: &mut BinaryHeap<u8>, call: &Call, cmp: &C) -> Reply {
    match *call {
        Call::Push(key) => reply_to_push(heap.push(key, cmp)),
        Call::PushOrUpdate(key) => reply_to_push(heap.push_or_update(key, cmp)),
        Call::Pop => Reply::Key(heap.pop(cmp)),
        Call::Remove(key) => Reply::Flag(heap.remove(key, cmp)),
        _ => {
            repair(heap, call, cmp);
            look(heap, call)
        }
    }
}

// As `repair`, lent a counter.
fn repair_counted<C: BinaryHeapCmp<u8>>(
    heap: &mut BinaryHeap<u8>,
    call: &Call,
    counter: &mut Counting<'_, C>,
) {
    match *call {
        Call::Up(key) => heap.up_counted(key, counter),
        Call::Down(key) => heap.down_counted(key, counter),
        Call::Update(key) => heap.update_counted(key, counter),
        Call::Rebuild => heap.rebuild_counted(counter),
        Call::Clear => heap.clear(),
        _ => (),
    }
}

// The reply to a call that is lent a counter.
fn counted_reply<C: BinaryHeapCmp<u8>>(
    heap: &mut BinaryHeap<u8>,
    call: &Call,
    counter: &mut Counting<'_, C>,
) -> Reply {
    match *call {
        Call::Push(key) => reply_to_push(heap.push_counted(key, counter)),
        Call::PushOrUpdate(key) => reply_to_push(heap.push_or_update_counted(key, counter)),
        Call::Pop => Reply::Key(heap.pop_counted(counter)),
        Call::Remove(key) => Reply::Flag(heap.remove_counted(key, counter)),
        _ => {
            repair_counted(heap, call, counter);
            look(heap, call)
        }
    }
}

// A heap whose calls are lent counters, and one whose calls are not.
#[derive(Drop)]
struct Twins {
    counted: BinaryHeap<u8>,
    plain: BinaryHeap<u8>,
}

impl Twins {
    // Whether both reply to a call as its row says, and ask equally often.
    fn reply_as<C: BinaryHeapCmp<u8>>(&mut self, row: &Row, cmp: &C) -> bool {
        let (call, wanted, asks) = row;
        let mut counter = Counting::new(cmp);
        let counted = counted_reply(&mut self.counted, call, &mut counter);
        let asked = Asked {
            cmp,
            count: Cell::new(0),
        };
        let plain = plain_reply(&mut self.plain, call, &asked);
        counted == *wanted
            && plain == *wanted
            && asks.allows(counter.count())
            && asked.count.get() == counter.count()
    }

    // The place of the first row that does not come true.
    fn first_wrong<C: BinaryHeapCmp<u8>>(&mut self, rows: &[Row], cmp: &C) -> Option<usize> {
        for (place, row) in rows.iter().enumerate() {
            if !self.reply_as(row, cmp) {
                return Some(place);
            }
        }
        None
    }

    fn first_wrong_in_order(&mut self, rows: &[Row], order: &Order) -> Option<usize> {
        match *order {
            Order::Number => self.first_wrong(rows, &ByNumber),
            Order::Reversed => self.first_wrong(rows, &Reverse(ByNumber)),
            Order::Ranks(ranks) => self.first_wrong(rows, &ByRank(ranks)),
        }
    }
}

// The part of a list and the place in it of the first row that does not come true.
fn first_wrong(alloc: Global, list: &[(Order, &[Row])]) -> Option<(usize, usize)> {
    let mut heaps = Twins {
        counted: BinaryHeap::new(alloc),
        plain: BinaryHeap::new(alloc),
    };
    for (part, (order, rows)) in list.iter().enumerate() {
        if let Some(place) = heaps.first_wrong_in_order(rows, order) {
            return Some((part, place));
        }
    }
    None
}

#[test]
fn each_call_of_the_lists_replies_and_asks_as_its_row_says(rt: HostRuntime) {
    for (title, list) in LISTS {
        let wrong = first_wrong(rt.alloc(), list);
        assert!(rt; wrong.is_none(), "{title}: {wrong:?}");
    }
}

fn counted_answers() -> ([bool; 2], u64) {
    let mut counter = Counting::new(&ByNumber);
    let answers = [counter.gte(2u32, 1), counter.gte(1u32, 2)];
    (answers, counter.count())
}

#[test]
fn a_counter_counts_each_question(rt: HostRuntime) {
    assert!(rt; counted_answers() == ([true, false], 2));
}

// Pushes keys of a list in turn.
fn filled(alloc: Global, keys: &[u8]) -> Result<BinaryHeap<u8>, AllocError> {
    let mut heap = BinaryHeap::new(alloc);
    for key in keys {
        heap.push(*key, &ByNumber)?;
    }
    Ok(heap)
}

// How many elements a heap has that was pushed 254, 0, 254 and 200, and whether these are among them.
fn elements(alloc: Global) -> Result<(usize, [bool; 3]), AllocError> {
    let heap = filled(alloc, &[254, 0, 254, 200])?;
    let keys = heap.elements();
    let are_held = [keys.contains(&0), keys.contains(&200), keys.contains(&254)];
    Ok((keys.len(), are_held))
}

#[test]
fn elements_has_each_held_key_once(rt: HostRuntime) -> Result<(), Fail> {
    let elements = elements(rt.alloc())?;
    assert!(rt; elements == (3, [true; 3]));
    Ok(())
}

#[test]
fn a_heap_shows_as_a_set(rt: HostRuntime) -> Result<(), Fail> {
    let heap = filled(rt.alloc(), &[9, 3, 8])?;
    let text = format!(in rt.alloc(); "{heap:?}")?;
    assert!(rt; text.as_str() == "{9, 3, 8}");
    Ok(())
}

// Whether each of three other keys is held and whether it is removed, where 7 alone is held; and whether 7 is held still.
fn found_beside_seven(alloc: Global) -> Result<([(bool, bool); 3], bool), AllocError> {
    let mut heap: BinaryHeap<u32> = BinaryHeap::new(alloc);
    heap.push(7, &ByNumber)?;
    let mut found = [(true, true); 3];
    for (place, &key) in [6, 8, u32::MAX].iter().enumerate() {
        found[place] = (heap.contains(key), heap.remove(key, &ByNumber));
    }
    Ok((found, heap.contains(7)))
}

#[test]
fn no_key_is_not_held(rt: HostRuntime) -> Result<(), Fail> {
    let outcome = found_beside_seven(rt.alloc())?;
    assert!(rt; outcome == ([(false, false); 3], true));
    Ok(())
}

#[test]
fn the_greatest_number_of_a_short_type_is_a_key(rt: HostRuntime) -> Result<(), Fail> {
    let mut heap: BinaryHeap<u16> = BinaryHeap::new(rt.alloc());
    heap.push(65535, &ByNumber)?;
    assert!(rt; heap.pop(&ByNumber) == Some(65535));
    Ok(())
}

// Which of the keys below seven come out of a heap by these calls, each once. None where another key comes out, or a
// key twice, where a key is left, or where a call asks oftener than the number beside it.
fn come_out<C: BinaryHeapCmp<u8>>(
    alloc: Global,
    calls: &[(Call, u64)],
    cmp: &C,
) -> Option<[bool; 7]> {
    let mut heap = BinaryHeap::new(alloc);
    let mut seen = [false; 7];
    for (call, most) in calls {
        let mut counter = Counting::new(cmp);
        let reply = counted_reply(&mut heap, call, &mut counter);
        if counter.count() > *most {
            return None;
        }
        if let Reply::Key(Some(key)) = reply {
            let is_seen = seen.get_mut(usize::from(key))?;
            if *is_seen {
                return None;
            }
            *is_seen = true;
        }
    }
    if heap.is_empty() { Some(seen) } else { None }
}

// The place of the first list of calls by which a key is lost under this comparer, which has no laws.
fn loses_a_key<C: BinaryHeapCmp<u8>>(alloc: Global, cmp: &C) -> Option<usize> {
    for (place, (calls, wanted)) in LAWLESS.iter().enumerate() {
        if come_out(alloc, calls, cmp) != Some(*wanted) {
            return Some(place);
        }
    }
    None
}

#[test]
fn comparers_without_laws_lose_no_key(rt: HostRuntime) {
    assert!(rt; loses_a_key(rt.alloc(), &Constant(true)).is_none());
    assert!(rt; loses_a_key(rt.alloc(), &Constant(false)).is_none());
    assert!(rt; loses_a_key(rt.alloc(), &Circle).is_none());
}

// All keys of a heap from the greatest, how often listing them asked, and how many keys are left.
fn drained(alloc: Global, keys: &[u8]) -> Result<(Vec<u8>, u64, usize), AllocError> {
    let mut heap = filled(alloc, keys)?;
    let mut counter = Counting::new(&ByNumber);
    let keys = heap.drain_sorted_counted(alloc, &mut counter)?;
    Ok((keys, counter.count(), heap.len()))
}

#[test]
fn draining_lists_all_keys_and_asks_little(rt: HostRuntime) -> Result<(), Fail> {
    let (keys, asked, left) = drained(rt.alloc(), &[3, 1, 4, 1, 5, 9, 2, 6])?;
    assert!(rt; keys.as_slice() == [9, 6, 5, 4, 3, 2, 1].as_slice());
    assert!(rt; left == 0 && asked <= 28);
    Ok(())
}

// Holds other keys than were held before.
fn built(alloc: Global) -> Result<(Vec<u8>, u64), AllocError> {
    let mut heap = filled(alloc, &[7, 4])?;
    let mut counter = Counting::new(&ByNumber);
    heap.build_counted(&[3, 9, 3, 4], &mut counter)?;
    Ok((heap.drain_sorted(alloc, &ByNumber)?, counter.count()))
}

#[test]
fn build_holds_each_listed_key_once(rt: HostRuntime) -> Result<(), Fail> {
    let (keys, asked) = built(rt.alloc())?;
    assert!(rt; keys.as_slice() == [9, 4, 3].as_slice());
    assert!(rt; asked <= 8);
    Ok(())
}
