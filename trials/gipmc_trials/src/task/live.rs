//! Circuits with justice properties and fairness constraints, and lassos: what is written is read again.

use gipmc_aiger::{read_lassos, read_problem, write_lasso, write_live_aag, write_live_aig};
use std::alloc::Global;

// What a text writes, in the ascii form. None where it is not read or not written.
fn ascii(alloc: Global, text: &[u8]) -> Option<Vec<u8>> {
    let problem = read_problem(alloc, text).ok()?;
    write_live_aag(alloc, &problem.netlist.circuit, &problem.liveness).ok()
}

// The same in the binary form.
fn binary(alloc: Global, text: &[u8]) -> Option<Vec<u8>> {
    let problem = read_problem(alloc, text).ok()?;
    write_live_aig(alloc, &problem.netlist.circuit, &problem.liveness).ok()
}

// The text of the first lasso of a text for one latch and two inputs.
fn lasso(alloc: Global, text: &[u8]) -> Option<Vec<u8>> {
    let claims = read_lassos(alloc, 1, 2, text).ok()?;
    let claim = claims.first()?;
    let property = claim.properties.first()?;
    write_lasso(alloc, *property, &claim.trace).ok()
}

// Whether this was written.
fn is_text(written: Option<Vec<u8>>, wanted: &[u8]) -> bool {
    match written {
        Some(text) => text.as_slice() == wanted,
        None => false,
    }
}

// A text, and what it writes in the ascii form and in the binary form.
const CIRCUITS: [(&[u8], &[u8], &[u8]); 5] = [
    // An output is bad where there is neither a bad literal nor a justice property.
    (
        b"aag 1 1 0 1 0\n2\n3\n",
        b"aag 1 1 0 0 0 1 0 0 0\n2\n3\n",
        b"aig 1 1 0 0 0 1 0 0 0\n3\n",
    ),
    (
        b"aag 1 1 0 1 0 0 0 0 1\n2\n3\n2\n",
        b"aag 1 1 0 0 0 1 0 0 1\n2\n3\n2\n",
        b"aig 1 1 0 0 0 1 0 0 1\n3\n2\n",
    ),
    // Two justice properties, one of them of two literals, and a fairness constraint.
    (
        b"aag 2 0 1 0 1 1 1 2 1\n2 2\n2\n3\n1\n2\n2\n0\n3\n1\n4 2 3\nj1 live\nf0 fair\n",
        b"aag 2 0 1 0 1 1 1 2 1\n2 2 0\n2\n3\n1\n2\n2\n0\n3\n1\n4 2 3\n",
        b"aig 2 0 1 0 1 1 1 2 1\n2 0\n2\n3\n1\n2\n2\n0\n3\n1\n\x01\x01",
    ),
    // No bad literal, and a property of none.
    (
        b"aag 1 1 0 1 0 0 0 2\n2\n3\n0\n1\n3\n",
        b"aag 1 1 0 0 0 0 0 2 0\n2\n0\n1\n3\n",
        b"aig 1 1 0 0 0 0 0 2 0\n0\n1\n3\n",
    ),
    // Gates in another order.
    (
        b"aag 3 1 0 0 2 0 0 1\n2\n1\n6\n6 5 2\n4 2 3\n",
        b"aag 3 1 0 0 2 0 0 1 0\n2\n1\n6\n4 2 3\n6 5 2\n",
        b"aig 3 1 0 0 2 0 0 1 0\n1\n6\n\x01\x01\x01\x03",
    ),
];

#[test]
fn circuits_are_read_again(rt: HostRuntime) {
    for (text, wanted, packed) in &CIRCUITS {
        assert!(rt; is_text(ascii(rt.alloc(), text), wanted));
        assert!(rt; is_text(binary(rt.alloc(), text), packed));
    }
}

#[test]
fn lassos_are_read_again(rt: HostRuntime) {
    let text = b"u0\n1\nb0\n1\n00\n.\n0\nj0\n.\n1\nj3\nx\n01\n1x\n.\n";
    assert!(rt; is_text(lasso(rt.alloc(), text), b"1\nj3\n0\n01\n10\n.\n"));
}
