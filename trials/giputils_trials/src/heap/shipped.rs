//! The comparers of the library at concrete types.

use giputils_heap::{BinaryHeapCmp, ByNumber, ByOrd, ByRank, Counting, RankTable};
use std::cmp::Reverse;

// Asks a comparer through its trait. It ensures nothing, so that a test need not look through what the answer means.
fn gte<C: BinaryHeapCmp<u8>>(cmp: &C, s: u8, o: u8) -> bool {
    cmp.gte(s, o)
}

#[test]
fn the_shipped_comparers_tell_the_greater_key(rt: HostRuntime) {
    assert!(rt; gte(&ByNumber, 2, 1));
    assert!(rt; !gte(&Reverse(ByNumber), 2, 1));
    let table = RankTable([5, 3, 4, 3]);
    for &(s, o, wanted) in &[(0, 2, true), (3, 1, true), (4, 1, false), (5, 4, true)] {
        assert!(rt; gte(&ByRank(&table.0), s, o) == wanted);
        assert!(rt; gte(&table, s, o) == wanted);
    }
}

#[test]
fn ranks_of_any_order_tell_the_greater_key(rt: HostRuntime) {
    let scores = ByOrd(&[7u64, 1 << 40, 7]);
    for &(s, o) in &[(1, 0), (1, 2), (2, 0), (0, 3), (4, 3), (3, 3)] {
        assert!(rt; gte(&scores, s, o));
        assert!(rt; s == o || !gte(&scores, o, s));
    }
}

#[test]
fn counters_are_equal_by_comparer_and_count(rt: HostRuntime) {
    let (table, other) = (RankTable([5, 3]), RankTable([5, 4]));
    assert!(rt; table == RankTable([5, 3]));
    assert!(rt; table != other);
    let mut asked = Counting::new(&table);
    assert!(rt; asked == Counting::new(&table));
    assert!(rt; asked != Counting::new(&other));
    assert!(rt; asked.gte(0u8, 1));
    assert!(rt; asked != Counting::new(&table));
}
