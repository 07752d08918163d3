//! The example of the page of circuits.

use gipmc_circuits::Verdict;
use gipmc_uses::pages::traces::{counterexample, judged, two_latches};
use gipsat_cnf::Literal;
use std::alloc::AllocError;

#[test]
fn one_latch_becomes_true(rt: HostRuntime) -> Result<(), AllocError> {
    let netlist = two_latches(rt.alloc())?;
    let (second, third) = (Literal::new(2, true), Literal::new(3, true));
    assert!(rt; counterexample(rt.alloc(), &netlist, second)?.is_some());
    assert!(rt; counterexample(rt.alloc(), &netlist, third)?.is_none());
    assert!(rt; judged(rt.alloc(), &netlist, third)? == Verdict::Certified);
    assert!(rt; judged(rt.alloc(), &netlist, second)? != Verdict::Certified);
    Ok(())
}
