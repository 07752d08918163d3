//! The numbers k that are written as certificates.

use crate::task::justice::problem_of;
use gipmc_aiger::{Property, Subject};
use gipmc_task::{Grounds, TaskError, certificate_of};
use gipsat_plain::Plain;
use std::alloc::Global;

// The certificate of a circuit that is this number.
fn written(alloc: Global, circuit: &[u8], k: usize, asked: Subject) -> Result<Vec<u8>, TaskError> {
    let problem = problem_of(alloc, circuit)?;
    let grounds = Grounds::Clauses(&[], Some(k));
    certificate_of::<Plain>(alloc, &problem, asked, grounds, usize::MAX)
}

// Whether this is what is written. Where it is nothing, the number has to be refused since it does not certify.
fn is_written(written: Result<Vec<u8>, TaskError>, wanted: Option<&[u8]>) -> bool {
    match written {
        Ok(text) => match wanted {
            Some(wanted) => text.as_slice() == wanted,
            None => false,
        },
        Err(error) => wanted.is_none() && error == TaskError::Uncertified,
    }
}

// A latch that holds next what the input was, and is bad.
const HELD: &[u8] = b"aag 2 1 1 0 0 1\n2\n4 2\n4\n";

// A latch that stays 0, and is bad.
const KEPT: &[u8] = b"aag 1 0 1 0 0 1\n2 2\n2\n";

// Both.
const TWO: &[u8] = b"aag 3 1 2 0 0 2\n2\n4 4\n6 2\n4\n6\n";

// A latch that stays 0, and one that holds next what this is, and is bad.
const CHAIN: &[u8] = b"aag 2 0 2 0 0 1\n2 2\n4 2\n4\n";

const ONE: &[u8] = b"k 1\n";

const SECOND: &[u8] = b"k 2\n";

const FIRST: Subject = Subject::One(Property::Bad(0));

// A circuit, a number, what is asked about, and the text that certifies it by this number, or none.
const WRITTEN: &[(&[u8], usize, Subject, Option<&[u8]>)] = &[
    (KEPT, 1, Subject::All, Some(ONE)),
    (CHAIN, 2, FIRST, Some(SECOND)),
    (CHAIN, 1, Subject::All, None),
    (HELD, 1, Subject::All, None),
    (TWO, 1, FIRST, Some(ONE)),
    (TWO, 1, Subject::All, None),
];

#[test]
fn a_k_is_written_where_it_shows_that_it_is_safe(rt: HostRuntime) {
    for &(circuit, k, asked, wanted) in WRITTEN {
        let text = written(rt.alloc(), circuit, k, asked);
        assert!(rt; is_written(text, wanted));
    }
}
