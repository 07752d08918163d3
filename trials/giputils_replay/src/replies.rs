//! What is answered, line by line.

use std::alloc::Global;
use std::fmt::{Debug, Display};
use std::io::Write;

/// The lines that are answered so far. Where memory for one is refused, a part of it is missing.
#[derive(Drop)]
pub(crate) struct Replies {
    text: Vec<u8>,
}

impl Replies {
    pub(crate) fn new(alloc: Global) -> Self {
        Replies {
            text: Vec::new(alloc),
        }
    }

    /// All lines.
    pub(crate) fn text(&self) -> &[u8] {
        &self.text
    }

    /// A part of a line.
    pub(crate) fn piece(&mut self, piece: &str) {
        let _ = self.text.extend_from_slice(piece.as_bytes());
    }

    /// The rest of a line.
    pub(crate) fn line(&mut self, line: &str) {
        self.piece(line);
        self.piece("\n");
    }

    /// A part of a line: a value by `{}`.
    pub(crate) fn shown<T: Display>(&mut self, value: &T) {
        let _ = write!(self.text, "{value}");
    }

    /// A line: a value by `{:?}`.
    pub(crate) fn debugged<T: Debug>(&mut self, value: &T) {
        let _ = writeln!(self.text, "{value:?}");
    }

    /// A line: a number.
    pub(crate) fn number(&mut self, number: usize) {
        self.shown(&number);
        self.piece("\n");
    }

    /// A line: a truth value.
    pub(crate) fn flag(&mut self, flag: bool) {
        self.line(if flag { "true" } else { "false" });
    }

    /// A line: `ok` where a call was made, and not refused memory.
    pub(crate) fn done(&mut self, is_made: bool) {
        self.line(if is_made { "ok" } else { "no memory" });
    }

    /// A line: a number, or `none`.
    pub(crate) fn value(&mut self, value: Option<u32>) {
        match value {
            Some(number) => self.number(number as usize),
            None => self.line("none"),
        }
    }

    /// A line: the condition of a call does not hold.
    pub(crate) fn skipped(&mut self) {
        self.line("skipped");
    }

    /// A line: there is no such call.
    pub(crate) fn unknown(&mut self) {
        self.line("no such call");
    }
}
