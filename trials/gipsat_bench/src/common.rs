//! The numbers that a workload draws, and the checksum of what was answered.

use rand_core::Rng;
use rand_pcg::Pcg32;
use std::fmt;

// The stream of every generator.
const STREAM: u64 = 54;

/// The numbers that a workload draws: those of PCG32 from a seed on.
#[derive(Drop)]
pub(crate) struct Draws(Pcg32);

impl Draws {
    pub(crate) fn new(seed: u64) -> Self {
        Draws(Pcg32::new(seed, STREAM))
    }

    /// The next number.
    pub(crate) fn draw(&mut self) -> u32 {
        self.0.next_u32()
    }

    /// A number below `bound`, made of the next one.
    pub(crate) fn below(&mut self, bound: usize) -> usize {
        ((u64::from(self.draw()) * bound as u64) >> 32) as usize
    }
}

/// A checksum of 64-bit words, FNV-1a taken a word at a time. `{}` writes 16 hexadecimal digits.
#[derive(Clone, Copy)]
pub(crate) struct Digest(u64);

impl Digest {
    pub(crate) fn new() -> Self {
        Digest(0xcbf2_9ce4_8422_2325)
    }

    pub(crate) fn mix(&mut self, word: u64) {
        self.0 = (self.0 ^ word).wrapping_mul(0x100_0000_01b3);
    }
}

impl fmt::Display for Digest {
    fn fmt<W: fmt::Write>(&self, f: &mut fmt::Formatter<W>) -> fmt::Result {
        write!(f, "{:016x}", self.0)
    }
}
