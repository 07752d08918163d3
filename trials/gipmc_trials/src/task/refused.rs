//! Texts that a reader refuses where the program `gipmc` reads them by another one, or reads on.

use crate::task::justice::problem_of;
use gipmc_aiger::{AigerError, Place, Reason, read_circuit, read_problem, read_witness};
use gipmc_task::{PropertyKind, TaskError, replays};
use std::alloc::Global;

// How a text of a circuit is refused; None where it is read.
fn refusal(alloc: Global, text: &[u8]) -> Option<AigerError> {
    read_circuit(alloc, text).err()
}

// How a text of a witness with one latch and two inputs is refused.
fn witness_refusal(alloc: Global, text: &[u8]) -> Option<AigerError> {
    read_witness(alloc, 1, 2, text).err()
}

// A circuit with justice properties alone, and one whose lines end by two bytes.
const CIRCUITS: [(&[u8], AigerError); 2] = [
    (
        b"aag 0 0 0 0 0 0 0 1\n0\n",
        AigerError::Refused(Place::Line(1), Reason::Liveness),
    ),
    (
        b"aag 1 1 0 0 0\r\n2\r\n",
        AigerError::Refused(Place::Line(1), Reason::Separator),
    ),
];

const WITNESSES: [(&[u8], AigerError); 6] = [
    (b"", AigerError::Refused(Place::Line(1), Reason::End)),
    (
        b"0\nb0\n.\n",
        AigerError::Refused(Place::Line(1), Reason::Status),
    ),
    (
        b"2\nb0\n.\n",
        AigerError::Refused(Place::Line(1), Reason::Status),
    ),
    (
        b"1\nj0\n.\n",
        AigerError::Refused(Place::Line(2), Reason::Property),
    ),
    (
        b"c\nu0\n0\n",
        AigerError::Refused(Place::Line(3), Reason::Status),
    ),
    (
        b"1\nc\nj0",
        AigerError::Refused(Place::Line(3), Reason::Property),
    ),
];

#[test]
fn texts_are_refused(rt: HostRuntime) {
    for (text, wanted) in &CIRCUITS {
        assert!(rt; refusal(rt.alloc(), text) == Some(*wanted));
    }
    for (text, wanted) in &WITNESSES {
        assert!(rt; witness_refusal(rt.alloc(), text) == Some(*wanted));
    }
}

// How a text of a circuit with its justice properties is refused.
fn live_refusal(alloc: Global, text: &[u8]) -> Option<AigerError> {
    read_problem(alloc, text).err()
}

#[test]
fn a_fairness_constraint_beside_no_property_is_of_a_variable(rt: HostRuntime) {
    let refusal = live_refusal(rt.alloc(), b"aag 2 1 0 0 0 0 0 0 1\n2\n5\n");
    assert!(rt; refusal == Some(AigerError::Undefined(2)));
    assert!(rt; live_refusal(rt.alloc(), b"aag 2 1 0 0 0 0 0 0 1\n2\n3\n").is_none());
}

// The program replays witnesses of all kinds where no property is asked about.
#[test]
fn no_property_has_a_witness(rt: HostRuntime) -> Result<(), TaskError> {
    let problem = problem_of(rt.alloc(), b"aag 1 0 1 0 0 1\n2 2\n2\n")?;
    let kind = PropertyKind::Justice;
    let said = replays(rt.alloc(), &problem, kind, b"1\nj0\n0\n\n.\n", None);
    assert!(rt; said == Err(TaskError::NoProperties(kind)));
    Ok(())
}
