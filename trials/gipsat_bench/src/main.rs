//! Workloads of the solver, to be timed: `gipsat_bench WORKLOAD SIZE SEED [REPS]`.
//!
//! The words, the generator and the checksum are those of `giputils_bench`.
#![tactic(auto)]

mod calls;
mod common;

use crate::common::{Digest, Draws};
use std::alloc::Global;
use std::env;
use std::io::{self, ErrorKind};
use std::process::ExitCode;

const WORKLOADS: [&str; 2] = ["calls", "calls_within"];

// What the arguments ask for.
#[derive(Clone, Copy)]
struct Task<'a> {
    workload: &'a str,
    size: u32,
    seed: u64,
    reps: u64,
}

// The exit status after the usage line.
const USAGE: u8 = 2;

// The exit status where no workload has the name.
const UNKNOWN: u8 = 3;

fn main(rt: HostRuntime) -> io::Result<ExitCode> {
    let args: Vec<String> = env::args(&rt)?.collect(rt.alloc())?;
    match task_of(&args) {
        Some(task) => perform(&rt, task),
        None => {
            eprintln!(rt; "usage: gipsat_bench WORKLOAD SIZE SEED [REPS]")?;
            Ok(ExitCode::from(USAGE))
        }
    }
}

// What the arguments ask for, of which the first is the name of the program.
fn task_of(args: &[String]) -> Option<Task<'_>> {
    let reps = match args.get(4) {
        Some(reps) => reps.parse().ok()?,
        None => 1,
    };
    Some(Task {
        workload: args.get(1)?.as_str(),
        size: args.get(2)?.parse().ok()?,
        seed: args.get(3)?.parse().ok()?,
        reps,
    })
}

// Runs the workload, or all of them, and prints the checksums.
fn perform(rt: &HostRuntime, task: Task<'_>) -> io::Result<ExitCode> {
    if task.workload != "all" {
        return print_one(rt, task);
    }
    for &workload in &WORKLOADS {
        print!(rt; "{workload} ")?;
        print_one(rt, Task { workload, ..task })?;
    }
    Ok(ExitCode::SUCCESS)
}

// Prints the workload's checksum, if there is one of this name.
fn print_one(rt: &HostRuntime, task: Task<'_>) -> io::Result<ExitCode> {
    let mut checksum = Digest::new();
    match repeat(rt.alloc(), task, &mut checksum) {
        Some(true) => {
            println!(rt; "{checksum}")?;
            Ok(ExitCode::SUCCESS)
        }
        Some(false) => Err(io::Error::from(ErrorKind::OutOfMemory)),
        None => Ok(ExitCode::from(UNKNOWN)),
    }
}

// Makes all runs of the workload of a task, if there is one of this name: whether memory sufficed.
fn repeat(alloc: Global, task: Task<'_>, checksum: &mut Digest) -> Option<bool> {
    for rep in 0..task.reps {
        let mut rng = Draws::new(task.seed.wrapping_add(rep));
        let made = calls::run(alloc, task.workload, task.size, &mut rng, checksum);
        if made != Some(true) {
            return made;
        }
    }
    Some(true)
}
