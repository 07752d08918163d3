//! Both tasks with each request for memory refused in turn.

use gip_lines::watched::Watched;
use gip_lines::{GipFault, bits, script};
use giputils_refusing::{Refusing, refuse_each, refuse_from_each};
use std::alloc::Global;
use std::test::Fail;

// Keys whose ranks change, one by one and then two at once.
const SCRIPT: &[u8] =
    b"rank 0 10\nrank 1 8\nrank 2 2\nrank 3 6\npush 0\npush 1\npush 2\npush 3\nranks 0 1 1 0\npop\npop\npop\npop\n";

const REPLIES: &[u8] = b"ok\nok\nok\nok\nok\nok\nok\nok\nok\n3\n2\n0\n1\n";

// The replies where memory is refused to the key with this number.
const REPLIES_WITHOUT: [&[u8]; 4] = [
    b"ok\nok\nok\nok\nmemory\nok\nok\nok\nok\n3\n2\n1\nnone\n",
    b"ok\nok\nok\nok\nok\nmemory\nok\nok\nok\n3\n2\n0\nnone\n",
    b"ok\nok\nok\nok\nok\nok\nmemory\nok\nok\n3\n0\n1\nnone\n",
    b"ok\nok\nok\nok\nok\nok\nok\nmemory\nok\n2\n0\n1\nnone\n",
];

// A line of bits that are kept in memory, and two of others.
const BITS: &[u8] =
    b"10000000000000000000000000000000000000000000000000000000000000000\n[]\n01101\n";

const TEXTS: &[u8] =
    b"10000000000000000000000000000000000000000000000000000000000000000 0x10000000000000000 65\n[] [] 0\n01101 0xd 5\n";

// How a run ends.
#[derive(Drop)]
enum Ending {
    // With the output where nothing is refused.
    Served,
    // With the replies to a script that is refused one key.
    WithoutKey,
    // With want of memory, and nothing written.
    Unwritten,
    Other,
}

// Runs the script. Its replies are written to memory that is not refused.
fn ending_of(alloc: Global, memory: &Refusing) -> Ending {
    let mut reader = Watched::new(SCRIPT);
    let mut writer = Watched::new(Vec::new(alloc));
    let outcome = script(memory, &mut reader, &mut writer);
    ending_as(outcome, writer.device(), REPLIES)
}

// How a run ends that had this outcome and wrote this, where that is written if nothing is refused.
fn ending_as(outcome: Result<(), GipFault>, written: &[u8], wanted: &[u8]) -> Ending {
    match outcome {
        Ok(()) if written == wanted => Ending::Served,
        Ok(()) if is_without_key(written) => Ending::WithoutKey,
        Err(GipFault::Memory) if written.is_empty() => Ending::Unwritten,
        _ => Ending::Other,
    }
}

fn is_without_key(written: &[u8]) -> bool {
    for &replies in &REPLIES_WITHOUT {
        if written == replies {
            return true;
        }
    }
    false
}

#[test]
fn a_refusal_stops_a_script_unwritten_or_costs_one_key(rt: HostRuntime) -> Result<(), Fail> {
    let alloc = rt.alloc();
    let refused = refuse_each(
        alloc,
        |memory| matches!(ending_of(alloc, memory), Ending::Served),
    )?;
    let (mut costs_a_key, mut stops) = (false, false);
    for n in 1..=refused {
        let ending = ending_of(alloc, &Refusing::nth(alloc, n));
        costs_a_key = costs_a_key || matches!(ending, Ending::WithoutKey);
        stops = stops || matches!(ending, Ending::Unwritten);
        assert!(rt;
            matches!(ending, Ending::WithoutKey | Ending::Unwritten),
            "request {n}"
        );
    }
    assert!(rt; costs_a_key && stops);
    Ok(())
}

// Shows the bits. Their texts are written to memory that is not refused.
fn ending_of_bits(alloc: Global, memory: &Refusing) -> Ending {
    let mut reader = Watched::new(BITS);
    let mut writer = Watched::new(Vec::new(alloc));
    let outcome = bits(memory, &mut reader, &mut writer);
    ending_as(outcome, writer.device(), TEXTS)
}

// Bits are collected, which asks again where a request is refused: so each run is refused the later requests too.
#[test]
fn a_refusal_stops_bits_unwritten(rt: HostRuntime) -> Result<(), Fail> {
    let alloc = rt.alloc();
    let refused = refuse_from_each(
        alloc,
        |memory| matches!(ending_of_bits(alloc, memory), Ending::Served),
    )?;
    for n in 1..=refused {
        let ending = ending_of_bits(alloc, &Refusing::from(alloc, n));
        assert!(rt; matches!(ending, Ending::Unwritten), "from request {n} on");
        let ending = ending_of_bits(alloc, &Refusing::nth(alloc, n));
        assert!(rt;
            matches!(ending, Ending::Unwritten | Ending::Served),
            "request {n}"
        );
    }
    assert!(rt; refused > 0);
    Ok(())
}
