//! Scripts from memory to memory.

use crate::lines::tasks::{README_REPLIES, README_SCRIPT};
use gip_lines::watched::Watched;
use gip_lines::{GipFault, script};
use std::alloc::Global;

// How a script ends, and whether it is answered so.
fn ending(alloc: Global, input: &[u8], replies: &[u8]) -> (Result<(), GipFault>, bool) {
    let mut reader = Watched::new(input);
    let mut writer = Watched::new(Vec::new(alloc));
    let outcome = script(alloc, &mut reader, &mut writer);
    (outcome, writer.device().as_slice() == replies)
}

#[test]
fn answers_scripts(rt: HostRuntime) {
    let table: &[(&[u8], &[u8])] = &[
        (README_SCRIPT, README_REPLIES),
        (b"", b""),
        (b"push 003\npop", b"ok\n3\n"),
        (b"len", b"0\n"),
        (b"push 7\nclear\npush 7\npop\npop", b"ok\nok\nok\n7\nnone\n"),
        (b"push 0\npush 1\npush 0\nlen\n", b"ok\nok\nok\n2\n"),
        (
            b"rank 0 5\nrank 1 3\nrank 2 4\npush 0\npush 1\npush 2\nrank 1 9\npop\npop\npop\npop\n",
            b"ok\nok\nok\nok\nok\nok\nok\n1\n0\n2\nnone\n",
        ),
        (
            b"push 0\npush 1\npush 2\nrank 0 5\nrank 2 5\npop\npop\npop\n",
            b"ok\nok\nok\nok\nok\n2\n0\n1\n",
        ),
        (
            b"up 3\ndown 3\nrank 3 7\nlen\npush 3\npush 4\npop\n",
            b"ok\nok\nok\n0\nok\nok\n3\n",
        ),
        (b"rank 15 4294967295\npush 15\npop", b"ok\nok\n15\n"),
        (
            b"rank 0 10\nrank 1 8\nrank 2 2\nrank 3 6\npush 0\npush 1\npush 2\npush 3\nranks 0 1 1 0\npop\npop\npop\npop\n",
            b"ok\nok\nok\nok\nok\nok\nok\nok\nok\n3\n2\n0\n1\n",
        ),
        // Of one key the last pair stands, and a later `rank` counts on.
        (
            b"push 0\npush 1\npush 2\nranks 1 9 2 4 1 3\nrank 0 5\npop\npop\npop\nranks 0 0\n",
            b"ok\nok\nok\nok\nok\n0\n2\n1\nok\n",
        ),
        (
            b"push 14\npush 15\nranks 0 0 1 0 2 0 3 0 4 0 5 0 6 0 7 0 8 0 9 0 10 0 11 0 12 0 13 0 14 2 15 1\npop\npop",
            b"ok\nok\nok\n14\n15\n",
        ),
    ];
    for &(input, replies) in table {
        assert!(rt; ending(rt.alloc(), input, replies) == (Ok(()), true));
    }
}

#[test]
fn refuses_the_first_line_of_another_form(rt: HostRuntime) {
    let table: &[(&[u8], usize)] = &[
        (b"push 1\npush 16\n", 2),
        (b"push  3", 1),
        (b"pop ", 1),
        (b" pop", 1),
        (b"push +3", 1),
        (b"push 3\r\n", 1),
        (b"pop\n\npop", 2),
        (b"len\npop\n\xff\nlen\n\n", 3),
        (b"\n", 1),
        (b"\xff", 1),
        (b"push", 1),
        (b"rank 0 4294967296", 1),
        (b"rank 16 0", 1),
        (b"rank 1", 1),
        (b"rank 1 2 3", 1),
        (b"up 16", 1),
        (b"push 18446744073709551617", 1),
        (b"ranks", 1),
        (b"ranks 1", 1),
        (b"ranks 1 2 3", 1),
        (b"ranks 1 2 ", 1),
        (b"ranks 1 2 16 0", 1),
        (b"ranks 1 4294967296", 1),
        (
            b"pop\nranks 0 0 1 0 2 0 3 0 4 0 5 0 6 0 7 0 8 0 9 0 10 0 11 0 12 0 13 0 14 2 15 1 0 0",
            2,
        ),
    ];
    for &(input, number) in table {
        let (outcome, is_unanswered) = ending(rt.alloc(), input, b"");
        assert!(rt; outcome == Err(GipFault::Line(number)), "at {input:?}");
        assert!(rt; is_unanswered);
    }
}
