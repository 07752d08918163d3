//! Literals as texts.

use gipsat_cnf::Literal;
use std::test::Fail;

#[test]
fn a_literal_is_displayed_as_in_dimacs(rt: HostRuntime) -> Result<(), Fail> {
    let table = &[
        (3, "3"),
        (-3, "-3"),
        (i32::MAX, "2147483647"),
        (-i32::MAX, "-2147483647"),
    ];
    for &(number, text) in table {
        let l = Literal::from_dimacs(number);
        assert!(rt; l.is_some());
        if let Some(l) = l {
            assert!(rt; format!(in rt.alloc(); "{l}")?.as_str() == text);
            assert!(rt; format!(in rt.alloc(); "{l:?}")?.as_str() == text);
        }
    }
    Ok(())
}
