//! Tests of formulas, of the kernel, of the search, of the solver and of texts, and the examples of their pages.
//!
//! They hold what neither a clause nor a row of the built program can say: that a call which may answer None or false
//! answers more where it can, what the calls of a search between two answers tell, and what a listener hears. They stand
//! apart from the libraries, so that these are not proved twice for them. `tests/refused.py` runs some of them with each
//! of their requests for memory refused.
#![tactic(auto)]

#[cfg(test)]
mod calls;
#[cfg(test)]
mod costs;
#[cfg(test)]
mod derivations;
#[cfg(test)]
mod formulas;
#[cfg(test)]
mod listeners;
#[cfg(test)]
mod literals;
#[cfg(test)]
mod numbers;
#[cfg(test)]
mod paths;
#[cfg(test)]
mod random;
#[cfg(test)]
mod rat;
#[cfg(test)]
mod refusals;
#[cfg(test)]
mod saturation;
#[cfg(test)]
mod sessions;
#[cfg(test)]
mod texts;
#[cfg(test)]
mod uses;
#[cfg(test)]
mod verdicts;
