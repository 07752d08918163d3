//! Tests of the program part of `gip`: scripts and lines of bits, on devices that move few bytes at a time or fail, and
//! with requests for memory that are refused.
#[cfg(test)]
mod fault;
#[cfg(test)]
mod memory;
#[cfg(test)]
mod scripts;
#[cfg(test)]
mod tasks;
#[cfg(test)]
mod transfer;
#[cfg(test)]
mod vectors;
#[cfg(test)]
mod watched;
