//! Lines of bits from memory to memory.

use crate::lines::tasks::{BITS, BITS_TEXTS};
use gip_lines::watched::Watched;
use gip_lines::{GipFault, bits};
use std::alloc::Global;

// How lines of bits end, and whether their texts are these.
fn ending(alloc: Global, input: &[u8], texts: &[u8]) -> (Result<(), GipFault>, bool) {
    let mut reader = Watched::new(input);
    let mut writer = Watched::new(Vec::new(alloc));
    let outcome = bits(alloc, &mut reader, &mut writer);
    (outcome, writer.device().as_slice() == texts)
}

#[test]
fn shows_each_line_of_bits(rt: HostRuntime) {
    let table: &[(&[u8], &[u8])] = &[
        (BITS, BITS_TEXTS),
        (b"", b""),
        (b"1", b"1 0x1 1\n"),
        (
            b"10000000000000000000000000000000000000000000000000000000000000000\n",
            b"10000000000000000000000000000000000000000000000000000000000000000 0x10000000000000000 65\n",
        ),
        (
            b"0000000000000000000000000000000000000000000000000000000000001010",
            b"0000000000000000000000000000000000000000000000000000000000001010 0xa 64\n",
        ),
    ];
    for &(input, texts) in table {
        assert!(rt; ending(rt.alloc(), input, texts) == (Ok(()), true));
    }
}

#[test]
fn refuses_the_first_line_without_bits(rt: HostRuntime) {
    let table: &[(&[u8], usize)] = &[
        (b"0\n012\n", 2),
        (b"\n", 1),
        (b"\xff", 1),
        (b"1\n\n1", 2),
        (b" 1", 1),
        (b"1 ", 1),
        (b"1\r\n", 1),
        (b"[\n", 1),
        (b"[0]", 1),
        (b"0\n[] \n", 2),
        (b"0x1", 1),
        (b"0\n1\n\xff\n2\n", 3),
    ];
    for &(input, number) in table {
        let (outcome, is_unwritten) = ending(rt.alloc(), input, b"");
        assert!(rt; outcome == Err(GipFault::Line(number)), "at {input:?}");
        assert!(rt; is_unwritten);
    }
}
