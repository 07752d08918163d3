//! A formula and its proofs on devices that move one byte at a time or fail.

use gipsat_answers::{Verdict, solve_text};
use gipsat_dimacs::DimacsError;
use gipsat_drat::{DratError, Outcome, check_text};
use giputils_refusing::devices::{Failure, Sink, Source};
use std::alloc::Global;
use std::io::ErrorKind;

const REFUSES: Failure = Failure::Refuses(ErrorKind::StorageFull);

const TEXT: &[u8] = b"p cnf 2 2\n-1 0\n1 2 0\n";

// The length of `s SATISFIABLE`, `v -1 2 0` and their line feeds.
const ANSWER: u64 = 23;

const READS: u64 = 1 + TEXT.len() as u64;

// What is told of a run: how it ends, the calls of the reader and of the writer, and how many bytes were written.
type Moved = (Result<Verdict, DimacsError>, u64, u64, usize);

// Answers the text one byte at a time, where the read and the write of these numbers fail; with 0 none does.
fn move_bytes(alloc: Global, read: u64, write: u64, failure: Failure) -> Moved {
    let mut reader = Source::new(TEXT, 1, read);
    let mut writer = Sink::new(alloc, 1, write, failure);
    let outcome = solve_text(alloc, &mut reader, &mut writer, 100, &mut ());
    let verdict = match outcome {
        Ok(solved) => Ok(solved.verdict),
        Err(error) => Err(error),
    };
    (verdict, reader.calls, writer.calls, writer.text.len())
}

#[test]
fn moves_one_byte_at_a_time(rt: HostRuntime) {
    let moved = move_bytes(rt.alloc(), 0, 0, REFUSES);
    assert!(rt; moved == (Ok(Verdict::Satisfiable), READS, ANSWER, ANSWER as usize));
}

#[test]
fn stops_at_each_failed_read(rt: HostRuntime) {
    for call in 1..=READS {
        let moved = move_bytes(rt.alloc(), call, 0, REFUSES);
        assert!(rt; moved == (Err(DimacsError::Input), call, 0, 0));
    }
}

#[test]
fn stops_at_each_failed_write(rt: HostRuntime) {
    for failure in [REFUSES, Failure::TakesNone] {
        for call in 1..=ANSWER {
            let moved = move_bytes(rt.alloc(), 0, call, failure);
            let bytes = (call - 1) as usize;
            assert!(rt; moved == (Err(DimacsError::Output), READS, call, bytes));
        }
    }
}

// All clauses over two variables.
const FOUR: &[u8] = b"p cnf 2 4\n1 2 0\n-1 2 0\n1 -2 0\n-1 -2 0\n";

// A proof of it.
const PROOF: &[u8] = b"c one\n2 0\nd 2 1 0\n0\n";

// All clauses over three variables.
const EIGHT: &[u8] =
    b"p cnf 3 8\n1 2 3 0 1 2 -3 0 1 -2 3 0 1 -2 -3 0 -1 2 3 0 -1 2 -3 0 -1 -2 3 0 -1 -2 -3 0\n";

// All clauses over two variables, one of them twice.
const TWICE: &[u8] = b"p cnf 2 5\n1 1 2 0\n1 2 0\n-1 2 0\n1 -2 0\n-1 -2 -1 0\n";

// Formulas, and proofs as text and in bytes.
const PROOFS: &[(&[u8], &[u8])] = &[
    // A deletion behind a clause, without hints and with them.
    (FOUR, PROOF),
    (FOUR, b"a\x84\0\0a\0"),
    (FOUR, b"5 2 0 1 2 0\n5 d 1 0\n6 0 5 3 4 0\n"),
    (FOUR, b"a\x05\x04\0\x02\x04\0d\x02\0a\x06\0\x0a\x06\x08\0"),
    (EIGHT, b"a\x02\x04\0a\x02\0a\x04\0a\0"),
    // What is behind the empty clause is not looked at.
    (
        EIGHT,
        b"a\x04\x02\0d\x02\x04\x06\0d\x02\x04\x07\0a\x02\0a\x04\0x",
    ),
    // A literal twice, and codes of more bytes than they take.
    (EIGHT, b"a\x02\x02\x84\0\0a\x82\x80\x80\x80\0\0a\x04\0"),
    (TWICE, b"d\x02\x04\0a\x02\0"),
    // A variable of two bytes.
    (
        b"p cnf 64 4\n64 1 0\n64 -1 0\n-64 1 0\n-64 -1 0\n",
        b"a\x80\x01\0",
    ),
    // A text that begins as a binary proof may.
    (TWICE, b"d 1 2 0\n1 0\n"),
    // With hints.
    (
        EIGHT,
        b"9 1 2 0 1 2 0\n10 1 0 9 3 4 0\n11 2 0 10 5 6 0\n12 0 10 11 7 8 0\n",
    ),
    // Comments, deletions, gaps between names, and a last line without its end.
    (
        EIGHT,
        b"c one\n8 d 0\n19 2 1 0 1 2 0\n19 d 1 2 0\r\n\n 20 1 0 19 3\t4 0\n20 d 19 0\n21 2 0 20 5 6 0\n22 0 20 21 7 8 0",
    ),
    // What is behind the empty clause, and hints behind the one that ends their step.
    (
        EIGHT,
        b"9 1 2 0 1 2 1 7 0\n10 1 0 9 3 4 0\n11 2 0 10 5 6 0\n12 0 10 11 7 8 0\nx",
    ),
    // A tautology needs no hint.
    (b"p cnf 1 2\n1 0\n-1 0\n", b"3 1 -1 0 0\n4 0 1 2 0\n"),
    // A definition of a new variable, by clauses that are RAT.
    (
        EIGHT,
        b"9 4 -1 -2 0 0\n10 -4 1 0 -9 0\n11 -4 2 0 -9 0\n12 -4 0 10 11 7 8 0\n13 1 2 0 1 2 0\n14 -1 -2 0 9 12 0
15 1 0 13 3 4 0\n16 2 0 15 5 6 0\n17 0 15 16 14 0\n",
    ),
    // Binary.
    (
        EIGHT,
        b"a\x09\x02\x04\0\x02\x04\0d\x01\x02\0a\x0a\x02\0\x12\x06\x08\0a\x0b\x04\0\x14\x0a\x0c\0a\x0c\0\x14\x16\x0e\x10\0",
    ),
    (
        EIGHT,
        b"d\0a\x80\x01\x02\x04\0\x02\x04\0a\x81\x01\x02\0\x80\x02\x06\x08\0a\x82\x01\x04\0\x82\x02\x0a\x0c\0a\x83\x01\0\x82\x02\x84\x02\x0e\x10\0x",
    ),
    // A clause that is RAT, in binary.
    (
        EIGHT,
        b"a\x09\x08\x03\x05\0\0a\x0a\x09\x02\0\x13\0a\x0b\x02\x04\0\x02\x04\0a\x0c\x02\0\x16\x06\x08\0a\x0e\x04\0\x18\x0a\x0c\0a\x0f\0\x18\x1c\x0e\x10\0",
    ),
];

// What becomes of a proof that comes byte by byte, where the read and the write of these numbers fail.
fn check(
    alloc: Global,
    formula: &[u8],
    proof: &[u8],
    read: u64,
    write: u64,
) -> (Result<Outcome, DratError>, usize) {
    let mut formula = formula;
    let mut proof = Source::new(proof, 1, read);
    let mut writer = Sink::new(alloc, 1, write, REFUSES);
    let outcome = check_text(alloc, &mut formula, &mut proof, &mut writer);
    (outcome, writer.text.len())
}

#[test]
fn proofs_come_byte_by_byte(rt: HostRuntime) {
    for &(formula, proof) in PROOFS {
        let (outcome, _) = check(rt.alloc(), formula, proof, 0, 0);
        assert!(rt; outcome == Ok(Outcome::Verified), "{proof:?}");
    }
}

#[test]
fn a_failed_device_ends_a_check(rt: HostRuntime) {
    for call in 1..6 {
        let read = check(rt.alloc(), FOUR, PROOF, call, 0);
        assert!(rt; read == (Err(DratError::Proof), 0));
        let write = check(rt.alloc(), FOUR, PROOF, 0, call);
        assert!(rt; write.0 == Err(DratError::Output));
    }
}
