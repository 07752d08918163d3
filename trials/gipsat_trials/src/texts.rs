//! Tests of the texts of formulas and proofs, and the examples of their pages: devices that move one byte at a time or
//! fail, what a step of a checker leaves behind where it is refused, and deletions.
//!
//! What is read, answered and refused are rows of `tests/gipsat.sh`.
#[cfg(test)]
mod answered;
#[cfg(test)]
mod caller;
#[cfg(test)]
mod checked;
#[cfg(test)]
mod deletions;
#[cfg(test)]
mod devices;
#[cfg(test)]
mod hinted;
#[cfg(test)]
mod steps;
