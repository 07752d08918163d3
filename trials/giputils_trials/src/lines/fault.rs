//! The texts of faults.

use gip_lines::GipFault;
use std::test::Fail;

#[test]
fn each_fault_writes_its_text(rt: HostRuntime) -> Result<(), Fail> {
    let table = &[
        (GipFault::Input, "input: refused"),
        (GipFault::Line(1), "line 1: refused"),
        (
            GipFault::Line(usize::MAX),
            "line 18446744073709551615: refused",
        ),
        (GipFault::Memory, "memory: refused"),
        (GipFault::Output, "output: failed"),
    ];
    for &(fault, text) in table {
        assert!(rt; format!(in rt.alloc(); "{fault}")?.as_str() == text);
    }
    Ok(())
}
