//! Both tasks on devices that move few bytes at a time or fail, and on inputs that are too long.

use crate::lines::tasks::TASKS;
use gip_lines::watched::Watched;
use gip_lines::{GipFault, INPUT_LIMIT, Task};
use giputils_refusing::devices::{Failure, Sink, Source};
use std::alloc::{AllocError, Global};
use std::io::{self, ErrorKind, Read};
use std::test::Fail;

const REFUSES: Failure = Failure::Refuses(ErrorKind::Interrupted);

// What is told of a run: how it ends, whether all was written that should be, and the calls of the reader and of the
// writer.
type Transferred = (Result<(), GipFault>, bool, u64, u64);

// Does a task, one byte at a time.
fn transferred(alloc: Global, task: Task, input: &[u8], output: &[u8]) -> Transferred {
    let mut reader = Watched::new(Source::new(input, 1, 0));
    let mut writer = Watched::new(Sink::new(alloc, 1, 0, REFUSES));
    let outcome = task.run(alloc, &mut reader, &mut writer);
    let is_output = writer.device().text.as_slice() == output;
    (
        outcome,
        is_output,
        reader.device().calls,
        writer.device().calls,
    )
}

#[test]
fn moves_one_byte_at_a_time(rt: HostRuntime) {
    for &(task, input, output) in &TASKS {
        let calls = (1 + input.len() as u64, output.len() as u64);
        assert!(rt;
            transferred(rt.alloc(), task, input, output) == (Ok(()), true, calls.0, calls.1)
        );
    }
}

// Does a task whose read of this number fails; with 0 none does. Tells how it ends, whether a read has failed, how many
// were made, and whether nothing was written.
fn stopped_at_read(
    alloc: Global,
    task: Task,
    input: &[u8],
    call: u64,
) -> (Result<(), GipFault>, bool, u64, bool) {
    let mut reader = Watched::new(Source::new(input, 1, call));
    let mut writer = Watched::new(Vec::new(alloc));
    let outcome = task.run(alloc, &mut reader, &mut writer);
    let calls = reader.device().calls;
    (outcome, reader.failed(), calls, writer.device().is_empty())
}

#[test]
fn stops_at_a_failed_read(rt: HostRuntime) {
    for &(task, input, _) in &TASKS {
        for call in 1..=1 + input.len() as u64 {
            assert!(rt;
                stopped_at_read(rt.alloc(), task, input, call)
                    == (Err(GipFault::Input), true, call, true),
                "{task:?} at call {call}"
            );
        }
    }
}

// Does a task whose write of this number fails so. Tells how it ends, whether a write has failed, and how many were
// made.
fn stopped_at_write(
    alloc: Global,
    task: Task,
    input: &[u8],
    call: u64,
    failure: Failure,
) -> (Result<(), GipFault>, bool, u64) {
    let mut reader = Watched::new(input);
    let mut writer = Watched::new(Sink::new(alloc, 1, call, failure));
    let outcome = task.run(alloc, &mut reader, &mut writer);
    (outcome, writer.failed(), writer.device().calls)
}

#[test]
fn stops_at_a_failed_write(rt: HostRuntime) {
    for &(task, input, output) in &TASKS {
        for &failure in &[REFUSES, Failure::TakesNone] {
            for call in 1..=output.len() as u64 {
                assert!(rt;
                    stopped_at_write(rt.alloc(), task, input, call, failure)
                        == (Err(GipFault::Output), true, call),
                    "{task:?}, {failure:?} at call {call}"
                );
            }
        }
    }
}

// Does a task on so many digits 2. Tells how it ends, whether a read has failed, and whether nothing was written.
fn stopped_by_length(alloc: Global, task: Task, len: u64) -> (Result<(), GipFault>, bool, bool) {
    let mut reader = Watched::new(io::repeat(b'2').take(len));
    let mut writer = Watched::new(Vec::new(alloc));
    let outcome = task.run(alloc, &mut reader, &mut writer);
    (outcome, reader.failed(), writer.device().is_empty())
}

#[test]
fn refuses_an_input_that_is_too_long(rt: HostRuntime) {
    let limit = INPUT_LIMIT as u64;
    for (len, fault) in [(limit, GipFault::Line(1)), (limit + 1, GipFault::Input)] {
        for &task in &[Task::Script, Task::Bits] {
            assert!(rt;
                stopped_by_length(rt.alloc(), task, len) == (Err(fault), false, true),
                "{task:?}, {len} bytes"
            );
        }
    }
}

// So many digits 0.
fn zeros(alloc: Global, len: usize) -> Result<Vec<u8>, AllocError> {
    vec![in alloc; b'0'; len]
}

#[test]
fn reads_an_input_that_is_too_long_no_further(rt: HostRuntime) -> Result<(), Fail> {
    let input = zeros(rt.alloc(), 2 * INPUT_LIMIT)?;
    for &task in &[Task::Script, Task::Bits] {
        let (outcome, _, calls, _) = stopped_at_read(rt.alloc(), task, &input, 0);
        assert!(rt; outcome == Err(GipFault::Input), "{task:?}");
        assert!(rt; calls == 1_048_577);
    }
    Ok(())
}

// Does a task on an empty line and then so many digits 2. Tells how it ends, and whether nothing was written.
fn stopped_behind_a_line(alloc: Global, task: Task, more: u64) -> (Result<(), GipFault>, bool) {
    let first: &[u8] = b"\n";
    let mut reader = Watched::new(first.chain(io::repeat(b'2').take(more)));
    let mut writer = Watched::new(Vec::new(alloc));
    let outcome = task.run(alloc, &mut reader, &mut writer);
    (outcome, writer.device().is_empty())
}

// Whether an input is too long is told before what its first line is.
#[test]
fn refuses_the_length_before_the_first_line(rt: HostRuntime) {
    let limit = INPUT_LIMIT as u64;
    for (more, fault) in [(limit - 1, GipFault::Line(1)), (limit, GipFault::Input)] {
        for &task in &[Task::Script, Task::Bits] {
            assert!(rt;
                stopped_behind_a_line(rt.alloc(), task, more) == (Err(fault), true),
                "{task:?}, an empty line, then {more} bytes"
            );
        }
    }
}
