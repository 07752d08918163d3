//! An observer that stops each engine.

use gipmc_engines::{Event, Observer};
use std::ops::ControlFlow;

/// Stops simulation after so many rounds, and bounded model checking before so many transitions; at 0 of these IC3 too.
#[derive(Clone, Copy)]
pub struct Stopper {
    /// The rounds.
    pub rounds: usize,
    /// The transitions.
    pub depth: usize,
    /// How often it was told of a round.
    pub told: usize,
    /// How often it was told of a slice of IC3.
    pub slices: usize,
}

impl Stopper {
    /// Before it was told anything.
    pub fn new(rounds: usize, depth: usize) -> Self {
        Stopper {
            rounds,
            depth,
            told: 0,
            slices: 0,
        }
    }
}

impl Observer for Stopper {
    fn note(&mut self, event: Event<'_>) -> ControlFlow<()> {
        match event {
            Event::Rounds(rounds) => {
                self.told = self.told.saturating_add(1);
                stop_if(rounds >= self.rounds)
            }
            Event::Depth { depth, .. } => stop_if(depth >= self.depth),
            Event::Slice { .. } => {
                self.slices = self.slices.saturating_add(1);
                stop_if(self.depth == 0)
            }
            _ => ControlFlow::Continue(()),
        }
    }
}

fn stop_if(stops: bool) -> ControlFlow<()> {
    if stops {
        ControlFlow::Break(())
    } else {
        ControlFlow::Continue(())
    }
}
