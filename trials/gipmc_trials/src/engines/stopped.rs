//! Bounds and observers that end a search.

use crate::engines::small::{Form, ONES, SIX_ONES, literal, made};
use gipmc_engines::liveness::{Verdict, decide_live};
use gipmc_engines::{Bounds, Engine, Event, Observer, Plan, Tries};
use gipsat_plain::Plain;
use std::alloc::{AllocError, Global};
use std::ops::ControlFlow;

// Stops a search where it is told for the last time that it may be told.
#[derive(Clone, Copy)]
struct Stopper {
    // How often it may be told.
    most: usize,
    // How often it was told.
    told: usize,
}

impl Stopper {
    fn tell(&mut self) -> ControlFlow<()> {
        self.told = self.told.saturating_add(1);
        if self.told >= self.most {
            ControlFlow::Break(())
        } else {
            ControlFlow::Continue(())
        }
    }
}

impl Observer for Stopper {
    fn note(&mut self, event: Event<'_>) -> ControlFlow<()> {
        match event {
            Event::Rounds(_) | Event::Depth { .. } | Event::Slice { .. } => self.tell(),
            _ => ControlFlow::Continue(()),
        }
    }
}

// What is said, in short.
#[derive(Clone, Copy, PartialEq, Eq)]
enum Said {
    Fails,
    Live,
    Unknown,
}

fn said_by(verdict: &Verdict) -> Said {
    match verdict {
        Verdict::Fails(_) => Said::Fails,
        Verdict::Live(_, _) => Said::Live,
        Verdict::Unknown => Said::Unknown,
    }
}

// The last latch of a register is to recur, or its negation, which is true at as many moments as there are latches; or what
// is no variable of it.
const LAST_IS_SET: u8 = 6;

const LAST_IS_NOT_SET: u8 = 7;

const SIXTH_IS_NOT_SET: u8 = 13;

const NO_VARIABLE: u8 = 40;

// What an engine says of a register within so many calls of IC3, and how often an observer is told that may be told so
// often.
fn heard(
    alloc: Global,
    form: Form,
    justice: u8,
    (engine, calls): (Engine, usize),
    most: usize,
) -> Result<(Said, usize), AllocError> {
    let netlist = made(alloc, form)?;
    let plan = Plan {
        engine,
        tries: Tries {
            rounds: usize::from(engine == Engine::Simulation),
            ..Tries::default()
        },
        bounds: Bounds {
            depth: 9,
            calls,
            ..Bounds::default()
        },
        ..Plan::default()
    };
    let mut observer = Stopper { most, told: 0 };
    let justice = [literal(justice)];
    let verdict = decide_live::<Plain, _>(alloc, &netlist, &[], &justice, &plan, &mut observer)?;
    Ok((said_by(&verdict), observer.told))
}

// A literal that is to recur, the engine, how many calls IC3 may make, and what is said.
const BOUNDED: &[(u8, (Engine, usize), Said)] = &[
    (LAST_IS_SET, (Engine::All, 1000), Said::Fails),
    (LAST_IS_SET, (Engine::Simulation, 0), Said::Fails),
    (LAST_IS_SET, (Engine::Bounded, 0), Said::Fails),
    (LAST_IS_SET, (Engine::Induction, 0), Said::Fails),
    (LAST_IS_SET, (Engine::Ic3, 1000), Said::Fails),
    // Three literals are met in turn, and not a fourth one.
    (LAST_IS_NOT_SET, (Engine::All, 1000), Said::Live),
    (LAST_IS_NOT_SET, (Engine::Ic3, 1000), Said::Live),
    (LAST_IS_NOT_SET, (Engine::Invariants, 1000), Said::Live),
    // These look for a lasso alone.
    (LAST_IS_NOT_SET, (Engine::Simulation, 1000), Said::Unknown),
    (LAST_IS_NOT_SET, (Engine::Bounded, 1000), Said::Unknown),
    // No call is allowed.
    (LAST_IS_NOT_SET, (Engine::Ic3, 0), Said::Unknown),
    (NO_VARIABLE, (Engine::All, 1000), Said::Unknown),
];

#[test]
fn bounds_end_a_search(rt: HostRuntime) -> Result<(), AllocError> {
    for &(justice, bounds, wanted) in BOUNDED {
        let (said, _) = heard(rt.alloc(), ONES, justice, bounds, 1_000_000)?;
        assert!(rt; said == wanted);
    }
    Ok(())
}

#[test]
fn an_observer_that_stops_is_told_no_more(rt: HostRuntime) -> Result<(), AllocError> {
    for most in 1..7 {
        let (said, told) = heard(
            rt.alloc(),
            SIX_ONES,
            SIXTH_IS_NOT_SET,
            (Engine::All, 1000),
            most,
        )?;
        assert!(rt; said == Said::Unknown);
        assert!(rt; told == most);
    }
    Ok(())
}
