//! Searches by IC3 whose solvers are refused memory again and again.

use crate::engines::found::{Answer, checked};
use crate::engines::small::{COUNTER, Form, RING, literal, made};
use gipmc_circuits::Netlist;
use gipmc_ic3::{Found, Search};
use gipsat_cnf::{AnswerUnder, Budget, ClauseSink, Effort, Guess, Literal, SatSolver};
use gipsat_plain::Plain;
use std::alloc::{AllocError, Global};

// A solver of some lines that refuses a question now and then, and more and more rarely.
#[derive(Drop)]
struct Refusing {
    plain: Plain,
    // How many questions it was asked behind the last one that it refused.
    asked: u8,
    // How many it answers before it refuses one.
    answers: u8,
}

impl Refusing {
    // Counts a question, and refuses it if enough were answered.
    fn count(&mut self) -> Result<(), AllocError> {
        if self.asked >= self.answers {
            self.asked = 0;
            self.answers = self.answers.saturating_add(1);
            return Err(AllocError);
        }
        self.asked = self.asked.saturating_add(1);
        Ok(())
    }
}

impl ClauseSink for Refusing {
    ghost formula = { λ refusing. refusing.plain.formula };

    fn add_clause(&mut self, clause: &[Literal]) -> Result<(), AllocError> {
        self.plain.add_clause(clause)
    }
}

impl SatSolver for Refusing {
    fn new(alloc: Global) -> Self {
        Refusing {
            plain: Plain::new(alloc),
            asked: 0,
            answers: 1,
        }
    }

    fn solve_limited(
        &mut self,
        assumptions: &[Literal],
        budget: Budget,
    ) -> Result<AnswerUnder, AllocError> {
        self.count()?;
        self.plain.solve_limited(assumptions, budget)
    }

    fn guess_within(
        &mut self,
        domain: &[u32],
        assumptions: &[Literal],
        limit: usize,
    ) -> Result<Guess, AllocError> {
        self.count()?;
        self.plain.guess_within(domain, assumptions, limit)
    }

    fn value(&self, variable: u32) -> Option<bool> {
        self.plain.value(variable)
    }

    fn find_model(&mut self) -> Result<Option<Vec<bool>>, AllocError> {
        self.plain.find_model()
    }

    fn simplify(&mut self) -> Result<(), AllocError> {
        self.plain.simplify()
    }

    fn eliminate(&mut self, frozen: &[u32], steps: u64) -> Result<(), AllocError> {
        self.plain.eliminate(frozen, steps)
    }

    fn vivify(&mut self, propagations: u64) -> Result<(), AllocError> {
        self.plain.vivify(propagations)
    }

    fn effort(&self) -> Effort {
        self.plain.effort()
    }
}

// What a search finds that goes on wherever it is refused memory, and how often it was.
fn found_at_last(search: &mut Search<'_, Refusing>) -> (Found, usize) {
    for refused in 0..1000 {
        if let Ok(found) = search.run(1000) {
            return (found, refused);
        }
    }
    (Found::Open, 1000)
}

// What it finds out about gate 6, and whether it was refused memory more than some times.
fn answer_at_last(
    alloc: Global,
    form: Form,
    more_than: usize,
) -> Result<(Answer, bool), AllocError> {
    let netlist = made(alloc, form)?;
    let (found, refused) = found_about(alloc, &netlist)?;
    let answer = checked(alloc, &netlist, literal(12), &found)?;
    Ok((answer, refused > more_than))
}

fn found_about(alloc: Global, netlist: &Netlist) -> Result<(Found, usize), AllocError> {
    let mut search = Search::<Refusing>::new(alloc, netlist, literal(12))?;
    Ok(found_at_last(&mut search))
}

#[test]
fn goes_on_where_memory_was_refused(rt: HostRuntime) -> Result<(), AllocError> {
    assert!(rt; answer_at_last(rt.alloc(), COUNTER, 5)? == (Answer::Fails(4), true));
    assert!(rt; answer_at_last(rt.alloc(), RING, 5)? == (Answer::Safe, true));
    Ok(())
}
