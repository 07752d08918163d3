//! Questions on averages and sums of durations.

use super::at;
use super::shown::tell_debug;
use crate::replies::Replies;
use giputils_stat::statistic::{AverageDuration, CountedDuration};
use std::alloc::Global;
use std::time::Duration;

/// The text of the average of the durations.
pub(crate) fn average(alloc: Global, numbers: &[u128], replies: &mut Replies) {
    tell_debug(alloc, &average_of(numbers), replies);
    replies.line("");
}

/// The sum that the average of the durations tells.
pub(crate) fn average_sum(numbers: &[u128], replies: &mut Replies) {
    tell_nanos(average_of(numbers).sum(), replies);
}

/// The average of the durations, or `none`.
pub(crate) fn average_mean(numbers: &[u128], replies: &mut Replies) {
    match average_of(numbers).mean() {
        Some(mean) => tell_nanos(mean, replies),
        None => replies.line("none"),
    }
}

/// The text of the number and the sum of the durations.
pub(crate) fn counted(alloc: Global, numbers: &[u128], replies: &mut Replies) {
    tell_debug(alloc, &counted_of(numbers), replies);
    replies.line("");
}

/// The sum that the counted durations tell.
pub(crate) fn counted_sum(numbers: &[u128], replies: &mut Replies) {
    tell_nanos(counted_of(numbers).sum(), replies);
}

/// How many durations are in an average that is added to itself so often, and its text.
pub(crate) fn doubled(alloc: Global, numbers: &[u128], replies: &mut Replies) {
    let mut average = AverageDuration::default();
    let duration = duration_of(at(numbers, 1));
    if average.can_add(duration) {
        average += duration;
    }
    for _ in 0..at(numbers, 0) {
        let same = average;
        if average.can_merge(&same) {
            average += same;
        }
    }
    replies.shown(&average.count());
    replies.piece(" ");
    tell_debug(alloc, &average, replies);
    replies.line("");
}

/// Tells the nanoseconds of a duration.
pub(crate) fn tell_nanos(duration: Duration, replies: &mut Replies) {
    replies.shown(&duration.as_nanos());
    replies.line("");
}

/// The duration of so many nanoseconds, which is the greatest one at most.
pub(crate) fn duration_of(nanos: u128) -> Duration {
    if nanos <= Duration::MAX.as_nanos() {
        Duration::from_nanos_u128(nanos)
    } else {
        Duration::MAX
    }
}

// The average of the durations, as far as they can be added.
fn average_of(numbers: &[u128]) -> AverageDuration {
    let mut average = AverageDuration::default();
    for nanos in numbers {
        let duration = duration_of(*nanos);
        if average.can_add(duration) {
            average += duration;
        }
    }
    average
}

// The number and the sum of the durations, as far as they can be added.
fn counted_of(numbers: &[u128]) -> CountedDuration {
    let mut counted = CountedDuration::default();
    for nanos in numbers {
        let duration = duration_of(*nanos);
        if counted.can_add(duration) {
            counted += duration;
        }
    }
    counted
}
