//! What an observer is told, and what it stops.

use gipmc_aiger::{Subject, read_circuit};
use gipmc_circuits::Netlist;
use gipmc_engines::{Event, Observer, Plan};
use gipmc_task::{Lost, Outcome, Output, Said, TaskError, answer, together};
use gipsat_plain::Plain;
use std::alloc::Global;
use std::ops::ControlFlow;

// A latch that holds next what the input was, and one that stays 0. Both are bad.
const SWAPPED: &[u8] = b"aag 3 1 2 0 0 2\n2\n4 4\n6 2\n6\n4\n";

// This circuit.
pub(crate) fn swapped(alloc: Global) -> Result<Netlist, TaskError> {
    match read_circuit(alloc, SWAPPED) {
        Ok(netlist) => Ok(netlist),
        Err(error) => Err(TaskError::of_circuit(error)),
    }
}

// Whether the last of the answers says this of its literal.
pub(crate) fn says(said: &Said, outcome: Outcome) -> bool {
    match said.answers.last() {
        Some(answer) => answer.verdict.outcome() == outcome,
        None => false,
    }
}

// Lets no search begin about the bad literal at a place, and counts those that began and ended.
#[derive(Clone, Copy, PartialEq, Eq)]
struct Stopper {
    place: usize,
    begun: usize,
    ended: usize,
}

impl Observer for Stopper {
    fn note(&mut self, event: Event<'_>) -> ControlFlow<()> {
        match event {
            Event::Begin(place) if place == self.place => return ControlFlow::Break(()),
            Event::Begin(_) => self.begun = self.begun.saturating_add(1),
            Event::End { is_refused: false } => self.ended = self.ended.saturating_add(1),
            _ => {}
        }
        ControlFlow::Continue(())
    }
}

// What is said of two bad literals, of which the first one fails and the second one is safe: of both together, and whether
// the second one is left open; and how many searches began and ended.
fn said(alloc: Global, place: usize) -> Result<(Outcome, bool, usize, usize), TaskError> {
    let mut stopper = Stopper {
        place,
        begun: 0,
        ended: 0,
    };
    let mut output = Output::new(Vec::new(alloc), Lost::GoOn);
    let netlist = swapped(alloc)?;
    let said = answer::<Plain, _, _>(
        alloc,
        &netlist,
        Subject::All,
        &Plan::default(),
        &mut stopper,
        &mut output,
    )?;
    let is_open = says(&said, Outcome::Open);
    Ok((
        together(&said.answers),
        is_open,
        stopper.begun,
        stopper.ended,
    ))
}

#[test]
fn an_observer_leaves_a_literal_open(rt: HostRuntime) -> Result<(), TaskError> {
    assert!(rt; said(rt.alloc(), 1)? == (Outcome::Fails, true, 1, 1));
    assert!(rt; said(rt.alloc(), 0)? == (Outcome::Open, false, 1, 1));
    assert!(rt; said(rt.alloc(), 2)? == (Outcome::Fails, false, 2, 2));
    Ok(())
}
