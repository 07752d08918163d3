//! A reader of texts whose header is a hint.

use gipsat_dimacs::{DimacsError, HeaderRule, read_instance_by};
use std::alloc::Global;

// How many variables a text has.
fn variables_of(alloc: Global, text: &[u8]) -> Result<u32, DimacsError> {
    let mut reader = text;
    let instance = read_instance_by(alloc, &mut reader, HeaderRule::Relaxed)?;
    Ok(instance.variables)
}

const TEXTS: &[(&[u8], u32)] = &[(b"1 -7 0 2 0", 7), (b"0", 0)];

#[test]
fn a_text_without_a_header_is_read(rt: HostRuntime) {
    for &(text, variables) in TEXTS {
        assert!(rt; variables_of(rt.alloc(), text) == Ok(variables));
    }
}
