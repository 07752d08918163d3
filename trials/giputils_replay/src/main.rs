//! Runs lists of calls on the containers and on the solver, and answers each line with a line.
//!
//! A line `new NAME TITLE` begins a list, names the container that its calls are made on, which is empty at first, and
//! may say what the list shows. It is answered by itself. A container has a module of its own, which makes its calls and
//! tells their replies, and so has the solver. `new texts` begins a list of questions on statistics.
//!
//! The lists of the file `stdin` and the answers of the file `stdout` are made by `tools/make_lists.py`. The README says
//! where the answers come from. A line that is no call, and want of memory, show where the answers are compared: a word
//! that is no number counts as 0, and an unknown name is answered as such.
#![tactic(auto)]

mod bits;
mod calls;
mod galloc;
mod heap;
mod map;
mod replies;
mod set;
mod slots;
mod solver;
mod texts;
mod vector;

use crate::replies::Replies;
use std::alloc::Global;
use std::io::{self, Write};

fn main(rt: HostRuntime) -> io::Result<()> {
    let alloc = rt.alloc();
    let input = io::read_to_string(alloc, rt.reader())?;
    let mut replies = Replies::new(alloc);
    replay_each(alloc, &input, &mut replies);
    io::writer(&rt).write_all(replies.text())
}

// Runs the lists of the input one after another.
fn replay_each(alloc: Global, input: &str, replies: &mut Replies) {
    for list in input.split("\nnew ") {
        let list = list.strip_prefix("new ").unwrap_or(list);
        let (header, calls) = list.split_once('\n').unwrap_or((list, ""));
        replies.piece("new ");
        replies.line(header);
        replay(
            alloc,
            header.split(' ').next().unwrap_or(""),
            calls,
            replies,
        );
    }
}

// Makes the calls of a list on the container of this name.
fn replay(alloc: Global, name: &str, calls: &str, replies: &mut Replies) {
    match name {
        "bits" => bits::replay(alloc, calls, replies),
        "galloc" => galloc::replay(alloc, calls, replies),
        "heap" => heap::replay(alloc, calls, replies),
        "map" => map::replay(alloc, calls, replies),
        "set" => set::replay(alloc, calls, replies),
        "slots" => slots::replay(alloc, calls, replies),
        "solver" => solver::replay(alloc, calls, replies),
        "texts" => texts::replay(alloc, calls, replies),
        "vector" => vector::replay(alloc, calls, replies),
        _ => replies.line("no container has this name"),
    }
}
