//! All tests of `giputils_vec`, `giputils_hash`, `giputils_index` and `grc`, and those of `giputils_stat` that
//! no list of `giputils_replay` holds: worked examples of their calls, and tests in which they are refused memory.
mod bounds;
mod hashed;
mod indexes;
mod lists;
mod logs;
mod options;
mod owners;
mod refused;
mod slots;
mod statistics;
mod vectors;
