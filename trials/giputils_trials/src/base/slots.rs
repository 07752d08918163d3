//! Elements of an index allocator, and lists of indexes that are renamed.

use giputils_index::allocator::{GallocElem, rename};
use giputils_refusing::Refusing;
use std::alloc::AllocError;

fn replaced(mut elem: GallocElem<u32>, value: u32) -> GallocElem<u32> {
    *elem = value;
    elem
}

#[test]
fn an_element_keeps_its_value_and_is_not_removed(rt: HostRuntime) {
    let elem = replaced(GallocElem::new(3), 4);
    assert!(rt; !elem.is_removed());
    assert!(rt; *elem == 4);
    assert!(rt; elem.take() == 4);
}

// Whether a list of indexes is renamed so, without memory.
fn is_renamed(memory: &Refusing, indexes: &[usize], wanted: &[usize]) -> Result<bool, AllocError> {
    let mut list = indexes.to_vec(memory)?;
    let before = memory.requests();
    rename(&[Some(0), None, Some(1)], &mut list);
    Ok(list.as_slice() == wanted && memory.requests() == before)
}

#[test]
fn a_list_of_indexes_is_renamed_without_memory(rt: HostRuntime) {
    let memory = Refusing::none(rt.alloc());
    assert!(rt; is_renamed(&memory, &[2, 1, 0, 2, 7], &[1, 0, 1]) == Ok(true));
    assert!(rt; is_renamed(&memory, &[2, 1], &[1]) == Ok(true));
}
