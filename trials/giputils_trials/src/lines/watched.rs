//! A watched device: one call on it for each call, and whether one has failed.

use gip_lines::watched::Watched;
use giputils_refusing::devices::{Failure, Sink, Source};
use std::alloc::Global;
use std::io::ErrorKind;
use std::process::Abort;

const REFUSES: Failure = Failure::Refuses(ErrorKind::Interrupted);

fn read(reader: &mut Watched<Source<'_>>, buf: &mut [u8]) -> Result<usize, ErrorKind> {
    reader.read(buf).map_err(|e| e.kind())
}

fn write(writer: &mut Watched<Sink<Global>>, text: &[u8]) -> Result<usize, ErrorKind> {
    writer.write(text).map_err(|e| e.kind())
}

#[test]
fn remembers_a_failed_read(rt: HostRuntime) {
    let mut reader = Watched::new(Source::new(b"ab", 2, 1));
    let mut buf = [0u8; 4];
    assert!(rt; !reader.failed());
    assert!(rt; read(&mut reader, &mut buf) == Err(ErrorKind::Interrupted));
    assert!(rt; reader.failed());
    assert!(rt; read(&mut reader, &mut buf) == Ok(2));
    assert!(rt; reader.failed());
}

// A write of no bytes may take none, which is no failure.
fn write_none_twice(rt: &impl Abort, writer: &mut Watched<Sink<Global>>) {
    assert!(rt; write(writer, b"") == Ok(0));
    assert!(rt; !writer.failed());
    assert!(rt; write(writer, b"") == Err(ErrorKind::Interrupted));
    assert!(rt; writer.failed());
}

#[test]
fn remembers_a_failed_write(rt: HostRuntime) {
    let mut writer = Watched::new(Sink::new(rt.alloc(), 1, 2, REFUSES));
    write_none_twice(&rt, &mut writer);
}

// A call that fails is not made again, and neither is one that moves few bytes or none.
#[test]
fn makes_one_call_on_the_reader(rt: HostRuntime) {
    let mut reader = Watched::new(Source::new(b"abc", 2, 1));
    let mut buf = [0u8; 4];
    let reads = &[Err(ErrorKind::Interrupted), Ok(2), Ok(1), Ok(0), Ok(0)];
    for (made, outcome) in reads.iter().enumerate() {
        assert!(rt; reader.device().calls == made as u64);
        assert!(rt; read(&mut reader, &mut buf) == *outcome);
    }
    assert!(rt; reader.device().calls == 5);
}

fn write_each(
    rt: &impl Abort,
    writer: &mut Watched<Sink<Global>>,
    outcomes: &[Result<usize, ErrorKind>; 3],
) {
    for (made, outcome) in outcomes.iter().enumerate() {
        assert!(rt; writer.device().calls == made as u64);
        assert!(rt; write(writer, b"abc") == *outcome);
    }
    assert!(rt; writer.device().calls == 3);
}

#[test]
fn makes_one_call_on_the_writer(rt: HostRuntime) {
    for &(failure, outcome) in &[
        (REFUSES, Err(ErrorKind::Interrupted)),
        (Failure::TakesNone, Ok(0)),
    ] {
        let mut writer = Watched::new(Sink::new(rt.alloc(), 2, 2, failure));
        write_each(&rt, &mut writer, &[Ok(2), outcome, Ok(2)]);
    }
}
