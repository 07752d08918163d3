//! A caller, with a formula and its answer in memory.

use gipsat_answers::{Verdict, solve_text};
use gipsat_dimacs::DimacsError;
use std::alloc::Global;

// What is answered to a text, with what is written.
fn answer(alloc: Global, text: &[u8]) -> Result<(Verdict, Vec<u8>), DimacsError> {
    let mut reader = text;
    let mut writer = Vec::new(alloc);
    let solved = solve_text(alloc, &mut reader, &mut writer, 100, &mut ())?;
    Ok((solved.verdict, writer))
}

// A formula with a model, and one without, which is seen behind a conflict alone.
const TEXTS: &[(&[u8], Verdict, usize)] = &[
    (b"p cnf 2 2\n-1 0\n1 2 0\n", Verdict::Satisfiable, 23),
    (
        b"p cnf 2 4\n1 2 0\n-1 2 0\n1 -2 0\n-1 -2 0\n",
        Verdict::Unsatisfiable,
        16,
    ),
];

#[test]
fn a_text_is_answered(rt: HostRuntime) -> Result<(), DimacsError> {
    for &(text, wanted, len) in TEXTS {
        let (verdict, written) = answer(rt.alloc(), text)?;
        assert!(rt; verdict == wanted && written.len() == len);
    }
    Ok(())
}
