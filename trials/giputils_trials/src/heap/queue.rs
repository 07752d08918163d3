//! A queue that owns its priorities: which calls request memory, and what a refused push leaves.

use giputils_heap::PriorityQueue;
use giputils_refusing::{Refusing, refuse_each};
use std::alloc::AllocError;
use std::test::Fail;

type Queue<'a> = PriorityQueue<u32, u64, &'a Refusing>;

fn is_made(memory: &Refusing) -> bool {
    Queue::new(memory).is_ok()
}

fn is_bounded(memory: &Refusing) -> bool {
    Queue::with_bound(memory, 9, 0).is_ok()
}

fn one_key(memory: &Refusing) -> Result<Queue<'_>, AllocError> {
    let mut queue = Queue::new(memory)?;
    queue.push(3, 5)?;
    Ok(queue)
}

// Where memory for a key is refused, tells so only if the key of before is held still, alone and as it was.
fn is_pushed(memory: &Refusing) -> bool {
    let Ok(mut queue) = one_key(memory) else {
        return false;
    };
    queue.push(99, 7).is_ok() || queue.pop() != Some((3, 5)) || !queue.is_empty()
}

#[test]
fn a_queue_requests_memory_where_its_table_grows(rt: HostRuntime) {
    let alloc = rt.alloc();
    let outcomes = [
        ("new", refuse_each(alloc, is_made), 0..=0),
        ("with_bound", refuse_each(alloc, is_bounded), 3..=3),
        ("push", refuse_each(alloc, is_pushed), 3..=6),
    ];
    for (call, outcome, wanted) in outcomes {
        let is_right = matches!(outcome, Ok(requests) if wanted.contains(&requests));
        assert!(rt; is_right, "{call}: {outcome:?}");
    }
}

// Makes each call inside the table, and answers how often priorities were compared.
fn called_in_place(queue: &mut Queue) -> Result<u64, AllocError> {
    for key in 0..9 {
        queue.push(key, u64::from(key % 4))?;
    }
    queue.change_priority(4, 9);
    queue.pop();
    if queue.priorities().len() > 4 {
        queue.hold(4);
    }
    queue.remove(5);
    queue.clear();
    Ok(queue.comparisons())
}

#[test]
fn a_queue_requests_none_inside_its_table(rt: HostRuntime) -> Result<(), Fail> {
    let memory = Refusing::none(rt.alloc());
    let mut queue = Queue::with_bound(&memory, 9, 0)?;
    let requests = memory.requests();
    let comparisons = called_in_place(&mut queue)?;
    assert!(rt; memory.requests() == requests);
    assert!(rt; comparisons > 0);
    Ok(())
}

// Takes all keys out of a queue, and tells whether they come by falling priority, and of equal ones by falling number.
fn comes_in_order(queue: &mut PriorityQueue<u32, u64>) -> bool {
    let wanted = [
        (7, 3),
        (3, 3),
        (6, 2),
        (2, 2),
        (5, 1),
        (1, 1),
        (8, 0),
        (4, 0),
        (0, 0),
    ];
    let mut right = true;
    for pair in wanted {
        right &= queue.pop() == Some(pair);
    }
    right && queue.pop().is_none()
}

#[test]
fn keys_come_by_priority_and_then_by_number(rt: HostRuntime) -> Result<(), Fail> {
    let mut queue = PriorityQueue::new(rt.alloc())?;
    for key in 0..9 {
        queue.push(key, u64::from(key % 4))?;
    }
    assert!(rt; comes_in_order(&mut queue));
    Ok(())
}
