//! Small proofs, with so few requests for memory that `tests/refused.py` refuses each: where one is refused, the check
//! says so, and the test ends with that error.

use gipsat_drat::{DratError, Outcome, check_text};
use std::alloc::Global;

// All clauses over three variables.
const EIGHT: &[u8] =
    b"p cnf 3 8\n1 2 3 0 1 2 -3 0 1 -2 3 0 1 -2 -3 0 -1 2 3 0 -1 2 -3 0 -1 -2 3 0 -1 -2 -3 0\n";

// A proof that adds clauses and deletes some, and one that ends too early.
const PROOFS: &[(&[u8], bool)] = &[
    (b"2 1 0\nd 1 2 3 0\nd 1 2 -3 0\n1 0\nd 2 1 0\n2 0\n", true),
    (b"1 2 0\n-3 0\n", false),
];

fn is_verified(alloc: Global, proof: &[u8]) -> Result<bool, DratError> {
    let mut formula = EIGHT;
    let mut proof = proof;
    let mut writer = Vec::new(alloc);
    let outcome = check_text(alloc, &mut formula, &mut proof, &mut writer)?;
    Ok(outcome == Outcome::Verified)
}

#[test]
fn a_proof_is_checked(rt: HostRuntime) -> Result<(), DratError> {
    for &(proof, wanted) in PROOFS {
        assert!(rt; is_verified(rt.alloc(), proof)? == wanted);
    }
    Ok(())
}
