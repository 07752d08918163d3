//! Runs at concrete types.
ghost use Rattle.std.specs.Prelude.{◌&&◌, nat_le};

use giputils_heap::HeapCall::{Clear, Down, IsEmpty, Len, Pop, Push, Rebuild, Up, Update};
use giputils_heap::HeapReply::{Done, Empty, Length, Popped, Skipped};
use giputils_heap::{BinaryHeapCmp, HeapCall, HeapReply, HeapStep, RankTable, heap_run};
use std::alloc::{AllocError, Allocator, Global};
use std::test::Fail;

/// A call of a run, which of the comparers it is lent, its reply, and how often it asks at most.
pub(crate) type Row = (HeapCall<u32>, usize, HeapReply<u32>, u64);

const RUNS: &[(&str, &[RankTable<4>], &[Row])] = &[
    (
        "a run of no steps has no replies",
        &[RankTable([0; 4])],
        &[],
    ),
    (
        "a key pushed twice is held once",
        &[RankTable([0; 4])],
        &[
            (Push(0), 0, Done, 0),
            (Push(1), 0, Done, 1),
            (Push(0), 0, Done, 0),
            (Len, 0, Length(2), 0),
        ],
    ),
    (
        "a run skips what is no key",
        &[RankTable([0; 4])],
        &[
            (Push(u32::MAX), 0, Skipped, 0),
            (Len, 0, Length(0), 0),
            (IsEmpty, 0, Empty(true), 0),
            (Up(u32::MAX), 0, Done, 0),
            (Push(7), 0, Done, 0),
            (Pop, 0, Popped(Some(7)), 0),
            (Clear, 0, Done, 0),
        ],
    ),
    (
        "a way up puts a risen rank right",
        &[RankTable([5, 3, 4, 0]), RankTable([5, 9, 4, 0])],
        &[
            (Push(0), 0, Done, 0),
            (Push(1), 0, Done, 1),
            (Push(2), 0, Done, 1),
            (Up(1), 1, Done, 1),
            (Pop, 1, Popped(Some(1)), 2),
            (Pop, 1, Popped(Some(0)), 2),
            (Pop, 1, Popped(Some(2)), 0),
        ],
    ),
    (
        "a way down puts a fallen rank right",
        &[RankTable([5, 3, 4, 0]), RankTable([1, 3, 4, 0])],
        &[
            (Push(0), 0, Done, 0),
            (Push(1), 0, Done, 1),
            (Push(2), 0, Done, 1),
            (Down(0), 1, Done, 2),
            (Pop, 1, Popped(Some(2)), 2),
            (Pop, 1, Popped(Some(1)), 2),
            (Pop, 1, Popped(Some(0)), 0),
        ],
    ),
    (
        "an update puts a risen rank right",
        &[RankTable([5, 3, 4, 0]), RankTable([5, 9, 4, 0])],
        &[
            (Push(0), 0, Done, 0),
            (Push(1), 0, Done, 1),
            (Push(2), 0, Done, 1),
            (Update(1), 1, Done, 2),
            (Pop, 1, Popped(Some(1)), 2),
            (Pop, 1, Popped(Some(0)), 2),
            (Pop, 1, Popped(Some(2)), 0),
        ],
    ),
    (
        "an update puts a fallen rank right",
        &[RankTable([5, 3, 4, 0]), RankTable([1, 3, 4, 0])],
        &[
            (Push(0), 0, Done, 0),
            (Push(1), 0, Done, 1),
            (Push(2), 0, Done, 1),
            (Update(0), 1, Done, 2),
            (Pop, 1, Popped(Some(2)), 2),
            (Pop, 1, Popped(Some(1)), 2),
            (Pop, 1, Popped(Some(0)), 0),
        ],
    ),
    (
        "a rebuild puts two changed ranks right",
        TWO_TABLES,
        TWO_CHANGED,
    ),
];

/// Ranks, and those of the same keys once two have changed.
pub(crate) const TWO_TABLES: &[RankTable<4>] = &[RankTable([10, 8, 2, 6]), RankTable([1, 0, 2, 6])];

/// Pushes four keys, changes the ranks of two of them, and updates these and rebuilds before five pops.
pub(crate) const TWO_CHANGED: &[Row] = &[
    (Push(0), 0, Done, 0),
    (Push(1), 0, Done, 1),
    (Push(2), 0, Done, 1),
    (Push(3), 0, Done, 2),
    (Update(0), 1, Done, 4),
    (Update(1), 1, Done, 4),
    (Rebuild, 1, Done, 8),
    (Pop, 1, Popped(Some(3)), 4),
    (Pop, 1, Popped(Some(2)), 2),
    (Pop, 1, Popped(Some(0)), 2),
    (Pop, 1, Popped(Some(1)), 0),
    (Pop, 1, Popped(None), 0),
];

/// A step for each row.
pub(crate) fn steps_of<'a, A: Allocator, C: BinaryHeapCmp<u32>>(
    alloc: A,
    comparers: &'a [C],
    rows: &[Row],
) -> Result<Vec<HeapStep<'a, u32, C>, A>, AllocError> {
    let mut steps = Vec::with_capacity(alloc, rows.len())?;
    for (call, comparer, _, _) in rows {
        let Some(cmp) = comparers.get(*comparer) else {
            continue;
        };
        steps.push(HeapStep::new(*call, cmp))?;
    }
    Ok(steps)
}

// The place of the first row that does not come true, or the number of rows where there is another number of replies.
fn first_wrong<C: BinaryHeapCmp<u32>>(
    alloc: Global,
    comparers: &[C],
    rows: &[Row],
) -> Result<Option<usize>, AllocError> {
    let mut steps = steps_of(alloc, comparers, rows)?;
    let replies = heap_run(alloc, &mut steps)?;
    Ok(first_difference(&steps, &replies, rows))
}

fn first_difference<C: BinaryHeapCmp<u32>>(
    steps: &[HeapStep<'_, u32, C>],
    replies: &[HeapReply<u32>],
    rows: &[Row],
) -> Option<usize> {
    for (place, (_, _, wanted, most)) in rows.iter().enumerate() {
        match (steps.get(place), replies.get(place)) {
            (Some(step), Some(reply)) if reply == wanted && step.cmp.count() <= *most => (),
            _ => return Some(place),
        }
    }
    if replies.len() == rows.len() {
        None
    } else {
        Some(rows.len())
    }
}

#[test]
fn each_step_of_the_runs_replies_and_asks_as_its_row_says(rt: HostRuntime) -> Result<(), Fail> {
    for (title, comparers, rows) in RUNS {
        let wrong = first_wrong(rt.alloc(), comparers, rows)?;
        assert!(rt; wrong.is_none(), "{title}: {wrong:?}");
    }
    Ok(())
}

// Compares by number, or says that no key is at least any.
#[derive(Drop)]
struct Switched {
    on: bool,
}

impl BinaryHeapCmp<u32> for Switched {
    ghost at_least = { λ c s o. c.on && nat_le o s };

    fn gte(&self, s: u32, o: u32) -> bool {
        self.on && s >= o
    }
}

const FORGOTTEN: &[Row] = &[
    (Push(0), 0, Done, 0),
    (Push(1), 0, Done, 1),
    (Push(2), 0, Done, 1),
    (Clear, 0, Done, 0),
    (Push(1), 1, Done, 0),
    (Push(2), 1, Done, 1),
    (Pop, 1, Popped(Some(2)), 2),
];

#[test]
fn a_comparer_without_laws_is_forgotten_once_nothing_is_held(rt: HostRuntime) -> Result<(), Fail> {
    let comparers = [Switched { on: false }, Switched { on: true }];
    let wrong = first_wrong(rt.alloc(), &comparers, FORGOTTEN)?;
    assert!(rt; wrong.is_none());
    Ok(())
}
