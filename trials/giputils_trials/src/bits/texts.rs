//! The texts of vectors.

use giputils_bits::bitvec::BitVec;
use std::alloc::Global;
use std::fmt::{self, Write};
use std::test::Fail;

// What the traits write that a format string calls for numbers alone.
#[derive(Drop)]
struct ByTraits<'a> {
    bits: &'a BitVec,
}

impl fmt::Display for ByTraits<'_> {
    fn fmt<W: fmt::Write>(&self, f: &mut fmt::Formatter<W>) -> fmt::Result {
        fmt::Binary::fmt(self.bits, f)?;
        f.write_str(" ")?;
        fmt::LowerHex::fmt(self.bits, f)?;
        f.write_str(" ")?;
        fmt::UpperHex::fmt(self.bits, f)
    }
}

fn is_text(alloc: Global, bits: &BitVec, text: &str) -> bool {
    match format!(in alloc; "{}", ByTraits { bits }) {
        Ok(written) => written.as_str() == text,
        Err(_) => false,
    }
}

#[test]
fn each_trait_writes_its_text(rt: HostRuntime) -> Result<(), Fail> {
    let alloc = rt.alloc();
    let bits = BitVec::from_usize(alloc, 12, 0xabc)?;
    assert!(rt; is_text(alloc, &bits, "101010111100 0xabc 0xABC"));
    Ok(())
}

// A sink that takes so many pieces of text, and no more.
#[derive(Drop)]
struct Sink {
    left: usize,
}

impl fmt::Write for Sink {
    fn write_str(&mut self, _piece: &str) -> fmt::Result {
        if self.left == 0 {
            return Err(fmt::Error);
        }
        self.left -= 1;
        Ok(())
    }
}

fn is_binary_text_written(bits: &BitVec, left: usize) -> bool {
    write!(&mut Sink { left }, "{bits}").is_ok()
}

fn is_hex_text_written(bits: &BitVec, left: usize) -> bool {
    write!(&mut Sink { left }, "{}", bits.lower_hex()).is_ok()
}

// Whether a text is written exactly where enough pieces are taken.
fn are_stopped(bits: &BitVec) -> bool {
    for left in 0..5 {
        let are_written = (
            is_binary_text_written(bits, left),
            is_hex_text_written(bits, left),
        );
        if are_written != (left >= 3, left >= 4) {
            return false;
        }
    }
    true
}

#[test]
fn a_sink_that_fails_stops_the_text(rt: HostRuntime) -> Result<(), Fail> {
    let bits = BitVec::ones(rt.alloc(), 130)?;
    assert!(rt; are_stopped(&bits));
    Ok(())
}
