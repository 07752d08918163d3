//! What a write that is lost ends.

use crate::task::observers::{says, swapped};
use gipmc_aiger::Subject;
use gipmc_engines::Plan;
use gipmc_task::{Lost, Outcome, Output, TaskError, answer};
use gipsat_plain::Plain;
use giputils_refusing::devices::{Failure, Sink};
use std::alloc::Global;
use std::io::ErrorKind;

// Whether the second of two bad literals, which is safe, is found to be so where the first answer is lost, and whether
// the output tells that one was.
fn goes_on(alloc: Global, lost: Lost) -> Result<(bool, bool), TaskError> {
    let writer = Sink::new(alloc, 9, 1, Failure::Refuses(ErrorKind::Other));
    let mut output = Output::new(writer, lost);
    let netlist = swapped(alloc)?;
    let said = answer::<Plain, _, _>(
        alloc,
        &netlist,
        Subject::All,
        &Plan::default(),
        &mut (),
        &mut output,
    )?;
    Ok((says(&said, Outcome::Safe), output.failure.is_some()))
}

#[test]
fn an_answer_that_is_lost_ends_the_search_where_that_is_wanted(
    rt: HostRuntime,
) -> Result<(), TaskError> {
    assert!(rt; goes_on(rt.alloc(), Lost::Stop)? == (false, true));
    assert!(rt; goes_on(rt.alloc(), Lost::GoOn)? == (true, true));
    Ok(())
}
