//! A caller, with a formula and its proofs in memory.

use gipsat_drat::{Outcome, check_text};
use std::alloc::Global;

// Whether a proof shows that nothing satisfies a formula.
fn is_refuted(alloc: Global, formula: &[u8], proof: &[u8]) -> bool {
    let mut formula = formula;
    let mut proof = proof;
    let mut written = Vec::new(alloc);
    let outcome = check_text(alloc, &mut formula, &mut proof, &mut written);
    matches!(outcome, Ok(Outcome::Verified))
}

#[test]
fn a_text_and_a_binary_proof_are_checked(rt: HostRuntime) {
    let formula = b"p cnf 2 4\n1 2 0\n-1 2 0\n1 -2 0\n-1 -2 0\n";
    assert!(rt; is_refuted(rt.alloc(), formula, b"2 0\n0\n"));
    assert!(rt; is_refuted(rt.alloc(), formula, b"a\x04\0a\0"));
}
