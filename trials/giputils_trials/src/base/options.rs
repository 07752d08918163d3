//! Option numbers: what callers learn through the clauses, and the calls once each.

use giputils_vec::others::{OptionU8, OptionU32};
use std::test::Fail;

fn write(o: &mut OptionU8, n: u8) {
    **o = n;
}

fn write_some(o: &mut OptionU32, n: u32) {
    **o = n;
}

fn number(o: OptionU32) -> Option<u32> {
    o.get()
}

fn none() -> OptionU8 {
    OptionU8::NONE
}

#[test]
fn writing_the_greatest_number_leaves_none(rt: HostRuntime) {
    let mut o = OptionU8::some(254);
    assert!(rt; o.is_some());
    assert!(rt; *o == 254);
    assert!(rt; o.get() == Some(254));
    write(&mut o, 255);
    assert!(rt; o.is_none());
    assert!(rt; o.get().is_none());
    assert!(rt; o == OptionU8::NONE);
    assert!(rt; o == none());
}

#[test]
fn holds_every_number_below_the_greatest(rt: HostRuntime) {
    let mut o = OptionU32::default();
    assert!(rt; o.is_none());
    assert!(rt; number(o).is_none());
    write_some(&mut o, 4294967294);
    assert!(rt; number(o) == Some(4294967294));
    assert!(rt; o == OptionU32::some(4294967294));
    assert!(rt; o != OptionU32::NONE);
}

#[test]
fn shows_the_number_that_is_kept(rt: HostRuntime) -> Result<(), Fail> {
    let text = format!(in rt.alloc(); "{:?} {:?}", OptionU8::NONE, OptionU32::some(7))?;
    assert!(rt; text.as_str() == "OptionU8(255) OptionU32(7)");
    Ok(())
}
