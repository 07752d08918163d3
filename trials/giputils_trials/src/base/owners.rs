//! Shared values: what callers learn through the clauses, and the calls once each.

use giputils::grc::Grc;
use std::alloc::{AllocError, Global};
use std::test::Fail;

fn shared(alloc: Global, value: u32) -> Result<(Grc<u32>, Grc<u32>), AllocError> {
    let first = Grc::new(alloc, value)?;
    let second = first.clone()?;
    Ok((first, second))
}

fn read(owner: &Grc<u32>) -> u32 {
    **owner
}

fn text(alloc: Global, owner: &Grc<u32>) -> Result<String, AllocError> {
    format!(in alloc; "{owner:?}")
}

#[test]
fn all_owners_read_the_same_value(rt: HostRuntime) -> Result<(), Fail> {
    let (first, second) = shared(rt.alloc(), 8)?;
    assert!(rt; read(&first) == 8);
    drop(first);
    assert!(rt; read(&second) == 8);
    assert!(rt; text(rt.alloc(), &second)?.as_str() == "Grc { inner: 8 }");
    Ok(())
}
