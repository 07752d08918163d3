//! The examples of the page.

use crate::engines::small::{SHIFTER, made};
use gipmc_engines::{Verdict, liveness};
use gipmc_reduce::Means;
use gipmc_uses::pages::{client, verdict};
use gipsat_cnf::Literal;
use std::alloc::AllocError;

#[test]
fn decides_both_ways(rt: HostRuntime) -> Result<(), AllocError> {
    let netlist = made(rt.alloc(), SHIFTER)?;
    let (full, never) = (Literal::new(4, true), Literal::new(0, true));
    assert!(rt;
        matches!(
            verdict::verdict(rt.alloc(), &netlist, full)?,
            Verdict::Fails(_)
        )
    );
    assert!(rt;
        matches!(
            verdict::verdict(rt.alloc(), &netlist, never)?,
            Verdict::Safe(_)
        )
    );
    Ok(())
}

#[test]
fn the_client_waits_forever_where_no_grant_has_to_come(rt: HostRuntime) -> Result<(), AllocError> {
    let netlist = client::client(rt.alloc())?;
    let grant = Literal::new(1, true);
    let waits = Literal::new(2, true);
    assert!(rt;
        matches!(
            client::verdict(rt.alloc(), &netlist, &[], waits)?,
            liveness::Verdict::Fails(_)
        )
    );
    assert!(rt;
        matches!(
            client::verdict(rt.alloc(), &netlist, &[grant], waits)?,
            liveness::Verdict::Live(Means::Counting(1), _)
        )
    );
    Ok(())
}
