//! A problem without justice properties.

use gipmc_aiger::{Problem, read_problem};
use gipmc_task::TaskError;
use gipmc_uses::pages::justice::answers;
use std::alloc::Global;

// The problem that a text writes.
pub(crate) fn problem_of(alloc: Global, text: &[u8]) -> Result<Problem, TaskError> {
    match read_problem(alloc, text) {
        Ok(problem) => Ok(problem),
        Err(error) => Err(TaskError::of_circuit(error)),
    }
}

#[test]
fn no_property_has_no_answer(rt: HostRuntime) -> Result<(), TaskError> {
    let problem = problem_of(rt.alloc(), b"aag 1 0 1 0 0 1\n2 2\n2\n")?;
    assert!(rt; answers(rt.alloc(), &problem)?.is_empty());
    Ok(())
}
