//! Lists of calls of the solver, which has no clause at first.
//!
//! A literal is a number as DIMACS has it: 1 is the first variable, and -1 its negation.
//!
//! `clause LITERAL..` gives a clause, `simplify` drops what has to hold anyway, and `eliminate STEPS VARIABLE..`
//! eliminates variables, but for these; each is answered `ok`.
//!
//! `solve LIMIT`, `limited LIMIT PROPAGATIONS`, `under LIMIT LITERAL..` (these are assumed) and `find` (with no limit)
//! are answered `sat`, `unsat` or `unknown`, and so is `guess LIMIT LITERAL..`, whose `sat` is not looked at; `value
//! VARIABLE` asks for a value then, `true`, `false` or `none`. Behind `unsat` under assumptions stands the core, in
//! rising order. `domain VARIABLE..` (answered `ok`) lets guesses decide these alone, or all where none is named.
//! `learn LIMIT` is `solve LIMIT`, but is answered `ok`. `slices LIMIT` goes on with such a limit until there is an
//! answer. Each is answered `open` where the search left a clause open that it should have found.
//!
//! `vivify PROPAGATIONS` shortens learned clauses: `shortened` if it added as many as it deleted, `nothing` if it did
//! neither, and else `wrong`.
//!
//! `known`, `learned` and `decisions` ask for numbers. `conflicts_above NUMBER` asks whether more conflicts were met, and
//! `known_below NUMBER` whether fewer clauses were known after each slice; the replies are `true` and `false`.

use crate::replies::Replies;
use gipsat_solver::{Answer, AnswerUnder, Budget, Guess, Literal, Solver};
use std::alloc::{AllocError, Global};

// The greatest variable of a line.
const GREATEST: u32 = 1_000_000;

// How many slices are tried.
const SLICES: usize = 1000;

// A solver, and what calls are about.
struct Session {
    solver: Solver,
    // The literals of the call that is made.
    literals: Vec<Literal>,
    // The variables that an elimination leaves.
    frozen: Vec<u32>,
    // The variables that guesses may decide, or none where all may be.
    domain: Vec<u32>,
    // How many clauses were known at most after a slice.
    most: usize,
}

// One call in its owners' proofs, in place of one for each field.
impl Drop for Session {
    fn drop(self) {
        let Session {
            solver,
            literals,
            frozen,
            domain,
            most: _,
        } = self;
    }
}

/// Makes the calls on a solver that has no clause.
pub(crate) fn replay(alloc: Global, calls: &str, replies: &mut Replies) {
    let mut session = Session {
        solver: Solver::new(alloc),
        literals: Vec::new(alloc),
        frozen: Vec::new(alloc),
        domain: Vec::new(alloc),
        most: 0,
    };
    for line in calls.lines() {
        let (name, words) = line.split_once(' ').unwrap_or((line, ""));
        session.answer(alloc, name, words, replies);
    }
}

// The number of a word, which is 0 where there is none.
fn number(words: &str, place: usize) -> u64 {
    words
        .split(' ')
        .nth(place)
        .unwrap_or("")
        .parse()
        .unwrap_or(0)
}

fn literal(word: &str) -> Literal {
    let number: i32 = word.parse().unwrap_or(0);
    Literal::new(number.unsigned_abs().min(GREATEST), number > 0)
}

// Reads literals behind so many words. Whether memory sufficed.
fn read(literals: &mut Vec<Literal>, words: &str, skipped: usize) -> bool {
    literals.clear();
    let mut is_whole = true;
    for word in words.split_whitespace().skip(skipped) {
        is_whole &= literals.push(literal(word)).is_ok();
    }
    is_whole
}

// Reads variables behind so many words. Whether memory sufficed.
fn read_variables(variables: &mut Vec<u32>, words: &str, skipped: usize) -> bool {
    variables.clear();
    let mut is_whole = true;
    for word in words.split_whitespace().skip(skipped) {
        is_whole &= variables.push(literal(word).variable()).is_ok();
    }
    is_whole
}

// Tells a core, in rising order.
fn tell_core(alloc: Global, core: &[Literal], replies: &mut Replies) {
    match numbers_of(alloc, core) {
        Ok(numbers) => tell_numbers(&numbers, replies),
        Err(_) => replies.done(false),
    }
}

// The numbers of literals, rising.
fn numbers_of(alloc: Global, core: &[Literal]) -> Result<Vec<i64>, AllocError> {
    let mut numbers = Vec::new(alloc);
    for l in core {
        numbers.push(i64::from(l.to_dimacs()))?;
    }
    numbers.sort_unstable();
    Ok(numbers)
}

fn tell_numbers(numbers: &[i64], replies: &mut Replies) {
    replies.piece("unsat");
    for number in numbers {
        replies.piece(" ");
        replies.shown(number);
    }
    replies.line("");
}

fn word_of(answer: &Result<Answer, AllocError>) -> &'static str {
    match answer {
        Ok(Answer::Sat(_)) => "sat",
        Ok(Answer::Unsat) => "unsat",
        Ok(Answer::Unknown) => "unknown",
        Err(_) => "no memory",
    }
}

fn word_under(answer: &Result<AnswerUnder, AllocError>) -> &'static str {
    match answer {
        Ok(AnswerUnder::Sat(_)) => "sat",
        Ok(AnswerUnder::Unsat(_)) => "unsat",
        Ok(AnswerUnder::Unknown) => "unknown",
        Err(_) => "no memory",
    }
}

impl Session {
    // Makes a call on literals or variables.
    fn answer(&mut self, alloc: Global, name: &str, words: &str, replies: &mut Replies) {
        match name {
            "clause" => self.give(words, replies),
            "domain" => replies.done(read_variables(&mut self.domain, words, 0)),
            "under" => self.ask_under(alloc, words, replies),
            "guess" => self.guess(alloc, words, replies),
            "eliminate" => self.eliminate(words, replies),
            _ => self.ask(name, number(words, 0), words, replies),
        }
    }

    fn give(&mut self, words: &str, replies: &mut Replies) {
        let is_read = read(&mut self.literals, words, 0);
        replies.done(is_read && self.solver.add_clause(&self.literals).is_ok());
    }

    // Eliminates variables, but for those that are named.
    fn eliminate(&mut self, words: &str, replies: &mut Replies) {
        let steps = number(words, 0);
        let is_read = read_variables(&mut self.frozen, words, 1);
        replies.done(is_read && self.solver.eliminate(&self.frozen, steps).is_ok());
    }

    // Makes a call of at most two numbers that asks for an answer.
    fn ask(&mut self, name: &str, first: u64, words: &str, replies: &mut Replies) {
        let limit = first as usize;
        match name {
            "solve" => self.solve(limit, replies),
            "limited" => self.solve_limited(limit, number(words, 1), replies),
            "find" => self.find(replies),
            "slices" => self.solve_in_slices(limit, replies),
            "learn" => replies.done(self.solver.solve(limit).is_ok()),
            "simplify" => replies.done(self.solver.simplify().is_ok()),
            "vivify" => self.vivify(first, replies),
            _ => self.tell(name, first, replies),
        }
    }

    // Tells what a call asks for.
    fn tell(&self, name: &str, first: u64, replies: &mut Replies) {
        match name {
            "known" => replies.number(self.solver.len()),
            "learned" => replies.number(self.solver.learned()),
            "decisions" => replies.number(self.solver.stats().decisions as usize),
            "conflicts_above" => replies.flag(self.solver.stats().conflicts > first),
            "known_below" => replies.flag((self.most as u64) < first),
            "value" => replies.line(self.value(first)),
            _ => replies.unknown(),
        }
    }

    // Tells an answer, unless a clause was left open.
    fn say(&self, word: &str, replies: &mut Replies) {
        replies.line(if self.solver.stats().left_open > 0 {
            "open"
        } else {
            word
        });
    }

    fn solve(&mut self, limit: usize, replies: &mut Replies) {
        let answer = self.solver.solve(limit);
        self.say(word_of(&answer), replies);
    }

    fn solve_limited(&mut self, clauses: usize, propagations: u64, replies: &mut Replies) {
        let budget = Budget {
            clauses,
            propagations,
        };
        let answer = self.solver.solve_limited(&[], budget);
        self.say(word_under(&answer), replies);
    }

    fn find(&mut self, replies: &mut Replies) {
        let word = match self.solver.find_model() {
            Ok(Some(_)) => "sat",
            Ok(None) => "unsat",
            Err(_) => "no memory",
        };
        self.say(word, replies);
    }

    // Asks until there is an answer, where each call may meet so many conflicts.
    fn solve_in_slices(&mut self, limit: usize, replies: &mut Replies) {
        let mut word = "unknown";
        for _ in 0..SLICES {
            if word == "unknown" {
                word = word_of(&self.solver.solve(limit));
                self.most = self.solver.len().max(self.most);
            }
        }
        self.say(word, replies);
    }

    // Asks under assumptions, and under the core alone where they can't be true together.
    fn ask_under(&mut self, alloc: Global, words: &str, replies: &mut Replies) {
        let limit = number(words, 0) as usize;
        if !read(&mut self.literals, words, 1) {
            return replies.done(false);
        }
        let answer = self.solver.solve_under(&self.literals, limit);
        match answer {
            Ok(AnswerUnder::Sat(_)) => self.say("sat", replies),
            Ok(AnswerUnder::Unsat(core)) => self.tell_if_core(alloc, &core, limit, replies),
            Ok(AnswerUnder::Unknown) => self.say("unknown", replies),
            Err(_) => replies.done(false),
        }
    }

    fn tell_if_core(
        &mut self,
        alloc: Global,
        core: &[Literal],
        limit: usize,
        replies: &mut Replies,
    ) {
        let again = self.solver.solve_under(core, limit);
        if matches!(again, Ok(AnswerUnder::Unsat(_))) && self.solver.stats().left_open == 0 {
            tell_core(alloc, core, replies);
        } else {
            self.say("wrong", replies);
        }
    }

    // Guesses under assumptions, in the domain if there is one.
    fn guess(&mut self, alloc: Global, words: &str, replies: &mut Replies) {
        let limit = number(words, 0) as usize;
        if !read(&mut self.literals, words, 1) {
            return replies.done(false);
        }
        let guess = if self.domain.is_empty() {
            self.solver.guess_under(&self.literals, limit)
        } else {
            self.solver
                .guess_within(&self.domain, &self.literals, limit)
        };
        match guess {
            Ok(Guess::Sat) => replies.line("sat"),
            Ok(Guess::Unsat(core)) => tell_core(alloc, &core, replies),
            Ok(Guess::Unknown) => replies.line("unknown"),
            Err(_) => replies.done(false),
        }
    }

    fn value(&self, variable: u64) -> &'static str {
        let short = u32::try_from(variable).unwrap_or(u32::MAX);
        match self.solver.value(short) {
            Some(true) => "true",
            Some(false) => "false",
            None => "none",
        }
    }

    // Shortens learned clauses, and tells what became of them.
    fn vivify(&mut self, propagations: u64, replies: &mut Replies) {
        let (known, deleted) = (self.solver.len(), self.solver.stats().deleted);
        if self.solver.vivify(propagations).is_err() {
            return replies.done(false);
        }
        let added = self.solver.len().saturating_sub(known) as u64;
        let deleted = self.solver.stats().deleted.saturating_sub(deleted);
        replies.line(if added != deleted {
            "wrong"
        } else if added > 0 {
            "shortened"
        } else {
            "nothing"
        });
    }
}
