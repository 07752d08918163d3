//! What a listener hears of a search: which ids the clauses have that come and go, and how many there are. That each
//! clause follows by its chain is shown by the proofs with hints that the program writes.
ghost use Rattle.std.specs.Prelude.{false};

use crate::random::Random;
use gipsat_solver::progress::{Progress, Report, solve_in_slices};
use gipsat_solver::{Answer, Literal, Solver};
use std::alloc::{AllocError, Global};
use std::ops::ControlFlow;

// What was heard of a search.
#[derive(Clone, Copy)]
struct Heard {
    // How many clauses there are.
    clauses: usize,
    // How many clauses were freed since the last one was added. The ids that are told are as they were before.
    freed: usize,
    added: usize,
    deleted: usize,
    // How much was told otherwise than it should be.
    wrong: usize,
    restarts: u64,
    // Whether the last clause is empty, which no report counts.
    is_refuted: bool,
}

impl Heard {
    // Of a formula of so many clauses nothing was heard.
    fn of(clauses: usize) -> Self {
        Heard {
            clauses,
            freed: 0,
            added: 0,
            deleted: 0,
            wrong: 0,
            restarts: 0,
            is_refuted: false,
        }
    }

    // Counts what is told otherwise than it should be.
    fn expect(&mut self, is_right: bool) {
        self.wrong = self.wrong.saturating_add(usize::from(!is_right));
    }

    fn expect_as_many(&mut self, report: Report) {
        let empty = usize::from(self.is_refuted);
        self.expect(report.clauses == self.clauses.saturating_sub(empty));
    }
}

impl Progress for Heard {
    ghost wants_stop = { λ _. false };

    fn wants_chains(&self) -> bool {
        true
    }

    fn begin(&mut self, report: Report) {
        self.expect_as_many(report);
    }

    fn added(&mut self, id: usize, clause: &[Literal], chain: &[usize]) {
        self.freed = 0;
        self.expect(id == self.clauses && !chain.is_empty());
        self.clauses = self.clauses.saturating_add(1);
        self.added = self.added.saturating_add(1);
        self.is_refuted = clause.is_empty();
    }

    fn deleted(&mut self, id: usize, _clause: &[Literal]) {
        self.expect(id.saturating_sub(self.freed) < self.clauses);
        self.freed = self.freed.saturating_add(1);
        self.clauses = self.clauses.saturating_sub(1);
        self.deleted = self.deleted.saturating_add(1);
    }

    fn note(&mut self, report: Report) -> ControlFlow<()> {
        self.expect_as_many(report);
        ControlFlow::Continue(())
    }

    fn end(&mut self, report: Report) {
        self.restarts = report.stats.restarts;
        self.expect_as_many(report);
    }
}

// What is heard of a search, whose last clause is empty exactly if nothing satisfies the formula.
fn listen(solver: &mut Solver) -> Result<Heard, AllocError> {
    let mut heard = Heard::of(solver.len());
    let answer = solve_in_slices(solver, usize::MAX, &mut heard)?;
    let is_unsat = matches!(answer, Some(Answer::Unsat));
    let is_refuted = heard.is_refuted;
    heard.expect(is_refuted == is_unsat);
    Ok(heard)
}

// That a pigeon is in a hole.
fn is_in(pigeon: u8, hole: u8) -> Literal {
    Literal::new(8 * u32::from(pigeon) + u32::from(hole), true)
}

// Adds that each pigeon is in one of the holes, whose number is one less than that of the pigeons.
fn add_pigeons(alloc: Global, solver: &mut Solver, holes: u8) -> Result<(), AllocError> {
    let mut clause = Vec::new(alloc);
    for pigeon in 0..=holes {
        clause.clear();
        for hole in 0..holes {
            clause.push(is_in(pigeon, hole))?;
        }
        solver.add_clause(&clause)?;
    }
    Ok(())
}

// Adds that no two of the pigeons are in the same hole.
fn add_holes(solver: &mut Solver, holes: u8) -> Result<(), AllocError> {
    for hole in 0..holes {
        for pigeon in 0..=holes {
            for other in 0..pigeon {
                solver.add_clause(&[is_in(pigeon, hole).negated(), is_in(other, hole).negated()])?;
            }
        }
    }
    Ok(())
}

// What is heard of so many holes and one pigeon more.
fn heard_of_pigeons(alloc: Global, solver: &mut Solver, holes: u8) -> Result<Heard, AllocError> {
    add_pigeons(alloc, solver, holes)?;
    add_holes(solver, holes)?;
    listen(solver)
}

// Clauses come and go: each slice but the last one learns 2000.
#[test]
fn each_clause_that_comes_or_goes_is_told(rt: HostRuntime) -> Result<(), AllocError> {
    let heard = heard_of_pigeons(rt.alloc(), &mut Solver::new(rt.alloc()), 7)?;
    assert!(rt; heard.wrong == 0 && heard.is_refuted);
    assert!(rt; heard.added > 2000 && heard.deleted > 1000 && heard.restarts > 0);
    Ok(())
}

// What is heard of clauses that look random, most of them of three literals.
fn heard_of_some(solver: &mut Solver, random: &mut Random) -> Result<Heard, AllocError> {
    for _ in 0..80 {
        let (a, b, c) = (random.literal(20), random.literal(20), random.literal(20));
        match random.below(20) {
            0 => solver.add_clause(&[a, b])?,
            1 if random.below(4) == 0 => solver.add_clause(&[a])?,
            2 if random.below(100) == 0 => solver.add_clause(&[])?,
            _ => solver.add_clause(&[a, b, c])?,
        }
    }
    listen(solver)
}

#[test]
fn random_formulas_are_told_of(rt: HostRuntime) -> Result<(), AllocError> {
    for seed in 0..100 {
        let heard = heard_of_some(&mut Solver::new(rt.alloc()), &mut Random::new(seed))?;
        assert!(rt; heard.wrong == 0, "seed {seed}");
    }
    Ok(())
}
