//! What is written is read again.

use crate::task::converted::as_ascii;
use gipmc_aiger::{
    Witness, read_circuit, read_invariant, read_invariant_for, read_witness, write_aig,
    write_invariant, write_witness,
};
use std::alloc::Global;

// The text of the circuit that a text writes, in the ascii form. None where it is not read or not written.
fn ascii(alloc: Global, text: &[u8]) -> Option<Vec<u8>> {
    as_ascii(alloc, text).ok()
}

// The same in the binary form.
fn binary(alloc: Global, text: &[u8]) -> Option<Vec<u8>> {
    let netlist = read_circuit(alloc, text).ok()?;
    write_aig(alloc, &netlist.circuit).ok()
}

// The text of the witness that a text writes for one latch and two inputs.
fn witness(alloc: Global, text: &[u8]) -> Option<Vec<u8>> {
    let Witness { property, trace } = read_witness(alloc, 1, 2, text).ok()?;
    write_witness(alloc, property, &trace).ok()
}

// The text of the invariant that a text writes over two latches.
fn invariant(alloc: Global, text: &[u8]) -> Option<Vec<u8>> {
    let clauses = read_invariant(alloc, 2, text).ok()?;
    write_invariant(alloc, 2, &clauses).ok()
}

// The text of the invariant that a text writes for a circuit, over its variables.
fn invariant_for(alloc: Global, circuit: &[u8], text: &[u8]) -> Option<Vec<u8>> {
    let netlist = read_circuit(alloc, circuit).ok()?;
    let clauses = read_invariant_for(alloc, &netlist.circuit, text).ok()?;
    write_invariant(alloc, 4, &clauses).ok()
}

// Whether this was written.
fn is_text(written: Option<Vec<u8>>, wanted: &[u8]) -> bool {
    match written {
        Some(text) => text.as_slice() == wanted,
        None => false,
    }
}

// A text, and the circuit in the ascii form and in the binary form.
const CIRCUITS: [(&[u8], &[u8], &[u8]); 6] = [
    (
        b"aag 0 0 0 0 0\n",
        b"aag 0 0 0 0 0 0 0\n",
        b"aig 0 0 0 0 0 0 0\n",
    ),
    // An output is bad where there is no bad literal.
    (
        b"aag 1 1 0 1 0\n2\n3\ni0 a\no0 b c\nc\nrest",
        b"aag 1 1 0 0 0 1 0\n2\n3\n",
        b"aig 1 1 0 0 0 1 0\n3\n",
    ),
    // Each kind of reset, a bad literal beside an output, and a constraint.
    (
        b"aag 4 0 4 1 0 1 1\n2 3\n4 4 0\n6 6 1\n8 9 8\n2\n4\n7\n",
        b"aag 4 0 4 0 0 1 1\n2 3 0\n4 4 0\n6 6 1\n8 9 8\n4\n7\n",
        b"aig 4 0 4 0 0 1 1\n3 0\n4 0\n6 1\n9 8\n4\n7\n",
    ),
    // Two justice properties, one of them of two literals, and a fairness constraint.
    (
        b"aag 2 0 1 0 1 1 1 2 1\n2 2\n2\n3\n1\n2\n2\n0\n3\n1\n4 2 3\nj1 live\nf0 fair\n",
        b"aag 2 0 1 0 1 1 1\n2 2 0\n2\n3\n4 2 3\n",
        b"aig 2 0 1 0 1 1 1\n2 0\n2\n3\n\x01\x01",
    ),
    // Gates in another order, and a number of two groups.
    (
        b"aag 3 1 0 1 2\n2\n6\n6 5 2\n4 2 3\nc a comment\n",
        b"aag 3 1 0 0 2 1 0\n2\n6\n4 2 3\n6 5 2\n",
        b"aig 3 1 0 0 2 1 0\n6\n\x01\x01\x01\x03",
    ),
    (
        b"aig 3 1 0 1 2\n6\n\x01\x01\x01\x03i0 x\n",
        b"aag 3 1 0 0 2 1 0\n2\n6\n4 3 2\n6 5 2\n",
        b"aig 3 1 0 0 2 1 0\n6\n\x01\x01\x01\x03",
    ),
];

#[test]
fn circuits_are_read_again(rt: HostRuntime) {
    for (text, wanted, packed) in &CIRCUITS {
        assert!(rt; is_text(ascii(rt.alloc(), text), wanted));
        assert!(rt; is_text(binary(rt.alloc(), text), packed));
    }
}

#[test]
fn witnesses_are_read_again(rt: HostRuntime) {
    let text = b"u0\n1\nc comment\nb7\nx\n01\n1x\n.\n1\nb1\n";
    assert!(rt; is_text(witness(rt.alloc(), text), b"1\nb7\n0\n01\n10\n.\n"));
}

#[test]
fn invariants_are_read_again(rt: HostRuntime) {
    let text = b"c two clauses\np cnf 2 2\n1 -2 0\n0";
    assert!(rt; is_text(invariant(rt.alloc(), text), b"p cnf 2 2\n1 -2 0\n0\n"));
}

// The first latch has variable 3, and the second one variable 2. Variable n is written as n + 1.
#[test]
fn invariants_are_over_variables(rt: HostRuntime) {
    let circuit = b"aag 3 1 2 0 0 1\n2\n6 2\n4 4\n6\n";
    let written = invariant_for(rt.alloc(), circuit, b"p cnf 2 2\n1 -2 0\n2 0\n");
    assert!(rt; is_text(written, b"p cnf 4 2\n4 -3 0\n3 0\n"));
}
