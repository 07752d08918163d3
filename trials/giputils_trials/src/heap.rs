//! A plain heap over a list, a caller of the heap, and all tests of the heap: its calls at concrete types, against the
//! plain one, through every order of some calls, and where memory is refused.
//!
//! The tests hold what no clause can say: that a call answers want of memory only where a request was refused, that
//! some calls make no request, and that the plain calls ask no oftener than the counted ones.
//!
//! A list of calls is a table of rows, which costs no proof: add one to `rows`, or to `runs` for a run.
#[cfg(test)]
mod bounded;
#[cfg(test)]
mod calls;
#[cfg(test)]
mod comparers;
#[cfg(test)]
mod comparisons;
pub mod list_heap;
#[cfg(test)]
mod orders;
#[cfg(test)]
mod queue;
#[cfg(test)]
mod refusals;
#[cfg(test)]
mod rows;
#[cfg(test)]
mod runs;
#[cfg(test)]
mod shipped;

pub use list_heap::ListHeap;
