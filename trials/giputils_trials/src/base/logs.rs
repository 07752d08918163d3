//! The interval logger.

use giputils_stat::logger::IntervalLogger;
use log::sink::Memory;
use log::{Level, Log, Logged};
use std::time::Duration;

// Whether a message is logged at a moment in nanoseconds.
fn logs<R: Log>(logger: &mut IntervalLogger, rt: &R, nanos: u64, level: Level) -> bool {
    logger.log(rt, Duration::from_nanos(nanos), level, &"tick")
}

#[test]
fn logs_at_most_once_an_interval(rt: HostRuntime) {
    let memory = Memory::new(rt.alloc());
    let logged = Logged::new(rt, Level::Info, &memory);
    let mut logger = IntervalLogger::with_default(Duration::ZERO);
    assert!(rt; !logs(&mut logger, &logged, 9_999_999_999, Level::Info));
    assert!(rt; logs(&mut logger, &logged, 10_000_000_000, Level::Info));
    assert!(rt; !logs(&mut logger, &logged, 19_000_000_000, Level::Info));
    // The level is not enabled, and the moment is moved all the same.
    assert!(rt; logs(&mut logger, &logged, 20_000_000_000, Level::Debug));
    assert!(rt; !logs(&mut logger, &logged, 29_999_999_999, Level::Info));
    assert!(rt; logs(&mut logger, &logged, 30_000_000_000, Level::Error));
    // A moment before the last is no time after it.
    assert!(rt; !logs(&mut logger, &logged, 5_000_000_000, Level::Info));

    let (_, _) = logged.into_parts();
    let lines = memory.into_lines();
    assert!(rt; lines.len() == 2);
    assert!(rt; lines.as_slice()[0].as_str() == "[INFO  giputils_stat::logger] tick");
    assert!(rt; lines.as_slice()[1].as_str() == "[ERROR giputils_stat::logger] tick");
}

#[test]
fn with_no_interval_each_message_is_logged(rt: HostRuntime) {
    let memory = Memory::new(rt.alloc());
    let mut logger = IntervalLogger::new(Duration::from_secs(10), Duration::ZERO);
    assert!(rt; logs(&mut logger, &memory, 5_000_000_000, Level::Info));
    assert!(rt; logs(&mut logger, &memory, 10_000_000_000, Level::Info));
    assert!(rt; memory.into_lines().len() == 2);
}
