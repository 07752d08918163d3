//! The two tasks of the program, each with an input and its output.

use gip_lines::Task;

// The script that the README shows.
pub(crate) const README_SCRIPT: &[u8] =
    b"push 3\npush 2\npush 4\npush 5\npush 1\npop\npop\nlen\nclear\npop\n";

// Its replies.
pub(crate) const README_REPLIES: &[u8] = b"ok\nok\nok\nok\nok\n5\n4\n3\nok\nnone\n";

// Some lines of bits.
pub(crate) const BITS: &[u8] = b"01101\n[]\n000\n";

// Their texts.
pub(crate) const BITS_TEXTS: &[u8] = b"01101 0xd 5\n[] [] 0\n000 0x0 3\n";

// Each task with its input and its output.
pub(crate) const TASKS: [(Task, &[u8], &[u8]); 2] = [
    (Task::Script, README_SCRIPT, README_REPLIES),
    (Task::Bits, BITS, BITS_TEXTS),
];
