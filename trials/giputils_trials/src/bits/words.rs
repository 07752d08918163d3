//! Vectors of each length.

use giputils_bits::bitvec::BitVec;
use std::alloc::Global;

fn is_one(alloc: Global, len: usize) -> bool {
    match BitVec::one(alloc, len) {
        Ok(bits) => bits.is_one(),
        Err(_) => false,
    }
}

fn is_ones(alloc: Global, len: usize) -> bool {
    match BitVec::ones(alloc, len) {
        Ok(bits) => bits.is_ones(),
        Err(_) => false,
    }
}

fn is_zero(alloc: Global, len: usize) -> bool {
    match BitVec::zero(alloc, len) {
        Ok(bits) => bits.is_zero(),
        Err(_) => false,
    }
}

#[test]
fn patterns_are_known_at_each_length(rt: HostRuntime) {
    let alloc = rt.alloc();
    for len in 1..200 {
        let are_known = [is_one(alloc, len), is_ones(alloc, len), is_zero(alloc, len)];
        assert!(rt; are_known == [true; 3], "{len} bits");
    }
}
