//! All tests of the vectors of `giputils_bits`: worked examples of the calls, and tests in which they are refused memory.
//! What a refused call leaves is proved; it is read back here all the same, at each request of a growing vector. Rows of
//! calls and answers are lists of `giputils_replay`.
mod by_value;
mod growth;
mod hashed;
mod in_place;
mod left;
mod replies;
mod runs;
mod texts;
mod words;
