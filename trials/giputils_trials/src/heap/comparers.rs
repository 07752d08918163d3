//! Comparers without laws.
ghost use Rattle.std.specs.Prelude.{◌+◌, ◌-◌, ◌%◌, nat_le};

use giputils_heap::{BinaryHeapCmp, HeapKey};

/// One answer to all questions. No order: either every key is at least every other, or no key is even at least itself.
#[derive(Clone, Copy)]
pub(crate) struct Constant(pub(crate) bool);

impl<T: HeapKey> BinaryHeapCmp<T> for Constant {
    ghost at_least = { λ constant _ _. constant.0 };

    fn gte(&self, _: T, _: T) -> bool {
        self.0
    }
}

/// A circle of the remainders by three: 1 is at least 0, 2 at least 1, and 0 at least 2. No order, since it is not
/// transitive.
pub(crate) struct Circle;

impl<T: HeapKey> BinaryHeapCmp<T> for Circle {
    ghost at_least = { λ _ s o. nat_le ((T.number s % 3 + 3 - T.number o % 3) % 3) 1 };

    fn gte(&self, s: T, o: T) -> bool {
        (s.key() % 3 + 3 - o.key() % 3) % 3 <= 1
    }
}
