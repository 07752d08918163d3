//! Numbers that look random.

use gipsat_solver::Literal;

// Numbers that look random, and are the same each time (xorshift).
#[derive(Clone, Copy)]
pub(crate) struct Random {
    state: u64,
}

impl Random {
    pub(crate) fn new(seed: u32) -> Self {
        Random {
            state: (u64::from(seed) << 20) ^ 0x9E37_79B9_7F4A_7C15,
        }
    }

    // The next number below another; 0 where none is.
    pub(crate) fn below(&mut self, end: u32) -> u32 {
        let mut state = self.state;
        state ^= state << 13;
        state ^= state >> 7;
        state ^= state << 17;
        self.state = state;
        let number = ((state >> 20) & 0xFFFF_FFFF).checked_rem(u64::from(end));
        u32::try_from(number.unwrap_or(0)).unwrap_or(0)
    }

    // A literal of one of so many variables.
    pub(crate) fn literal(&mut self, variables: u32) -> Literal {
        let variable = self.below(variables).min(0x7FFF_FFFF);
        Literal::new(variable, self.below(2) == 0)
    }
}
