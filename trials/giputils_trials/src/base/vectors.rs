//! Vectors: items that are pushed or collected, reads and writes by three types of indexes, and vectors that are drawn.

use giputils_vec::gvec::Gvec;
use rand_core::Rng;
use rand_pcg::Pcg32;
use std::alloc::{AllocError, Allocator, Global};
use std::test::Fail;

fn push_two<A: Allocator>(g: &mut Gvec<u32, A>) -> Result<(), AllocError> {
    g.push(1)?;
    g.push(2)?;
    Ok(())
}

#[test]
fn two_items_are_pushed(rt: HostRuntime) -> Result<(), Fail> {
    let mut g = Gvec::new(rt.alloc());
    push_two(&mut g)?;
    assert!(rt; g.as_slice() == [1, 2].as_slice());
    Ok(())
}

#[test]
fn made_from_an_iterator(rt: HostRuntime) -> Result<(), Fail> {
    let iterator = Gvec::from_iter(rt.alloc(), 1u32..3)?;
    assert!(rt; iterator.as_slice() == [1, 2].as_slice());
    Ok(())
}

fn into_vec(alloc: Global, g: Gvec<u8>) -> Result<Vec<u8>, AllocError> {
    g.into_iter().collect(alloc)
}

// Adds 1, 2 and 3 to the items of a vector of three. Tells the items then.
fn raised(g: &mut Gvec<u8>) -> Option<(u8, u8, u8)> {
    if g.len() != 3 {
        return None;
    }
    g[0usize] = g[0usize].wrapping_add(1);
    g[1u32] = g[1u32].wrapping_add(2);
    g[2i32] = g[2i32].wrapping_add(3);
    Some((g[0i32], g[1usize], g[2u32]))
}

#[test]
fn indexes_by_three_types(rt: HostRuntime) -> Result<(), Fail> {
    let mut g = Gvec::from_array(rt.alloc(), [7u8, 8, 9])?;
    assert!(rt; raised(&mut g) == Some((8, 10, 12)));
    let vec = into_vec(rt.alloc(), g)?;
    assert!(rt; vec.as_slice() == [8, 10, 12].as_slice());
    Ok(())
}

fn drawn(alloc: Global, seed: u64) -> Result<Gvec<u32>, AllocError> {
    let mut rng = Pcg32::new(seed, 54);
    Gvec::new_rand(alloc, 5, &mut rng, |rng| rng.next_u32())
}

fn is_drawn(alloc: Global, g: &Gvec<u32>, seed: u64) -> Result<bool, AllocError> {
    let other = drawn(alloc, seed)?;
    Ok(g.as_slice() == other.as_slice())
}

#[test]
fn one_seed_draws_one_list(rt: HostRuntime) -> Result<(), Fail> {
    let first = drawn(rt.alloc(), 42)?;
    assert!(rt; is_drawn(rt.alloc(), &first, 42) == Ok(true));
    assert!(rt; is_drawn(rt.alloc(), &first, 43) == Ok(false));
    assert!(rt; first.len() == 5);
    assert!(rt; first[0usize] == 0xa15c02b7);
    Ok(())
}
