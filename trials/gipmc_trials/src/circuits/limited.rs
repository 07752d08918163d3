//! A solver that leaves each question open where it may learn no clause.

use gipsat_cnf::{AnswerUnder, Budget, ClauseSink, Effort, Guess, Literal, SatSolver};
use gipsat_plain::Plain;
use std::alloc::{AllocError, Global};

/// A solver of some lines, which has no limit, behind one that obeys a limit of 0.
#[derive(Drop)]
pub struct Limited {
    plain: Plain,
}

impl ClauseSink for Limited {
    ghost formula = { λ limited. limited.plain.formula };

    fn add_clause(&mut self, clause: &[Literal]) -> Result<(), AllocError> {
        self.plain.add_clause(clause)
    }
}

impl SatSolver for Limited {
    fn new(alloc: Global) -> Self {
        Limited {
            plain: Plain::new(alloc),
        }
    }

    fn solve_limited(
        &mut self,
        assumptions: &[Literal],
        budget: Budget,
    ) -> Result<AnswerUnder, AllocError> {
        if budget.clauses == 0 {
            return Ok(AnswerUnder::Unknown);
        }
        self.plain.solve_limited(assumptions, budget)
    }

    fn guess_within(
        &mut self,
        domain: &[u32],
        assumptions: &[Literal],
        limit: usize,
    ) -> Result<Guess, AllocError> {
        if limit == 0 {
            return Ok(Guess::Unknown);
        }
        self.plain.guess_within(domain, assumptions, limit)
    }

    fn value(&self, variable: u32) -> Option<bool> {
        self.plain.value(variable)
    }

    fn find_model(&mut self) -> Result<Option<Vec<bool>>, AllocError> {
        self.plain.find_model()
    }

    fn simplify(&mut self) -> Result<(), AllocError> {
        self.plain.simplify()
    }

    fn eliminate(&mut self, frozen: &[u32], steps: u64) -> Result<(), AllocError> {
        self.plain.eliminate(frozen, steps)
    }

    fn vivify(&mut self, propagations: u64) -> Result<(), AllocError> {
        self.plain.vivify(propagations)
    }

    fn effort(&self) -> Effort {
        self.plain.effort()
    }
}
