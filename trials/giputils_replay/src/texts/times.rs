//! Questions on running times.

use super::at;
use super::durations::{duration_of, tell_nanos};
use super::shown::tell_display;
use crate::replies::Replies;
use giputils_stat::statistic::RunningTime;
use std::alloc::Global;

/// The text of a running time.
pub(crate) fn text(alloc: Global, numbers: &[u128], replies: &mut Replies) {
    let running = RunningTime::new(duration_of(at(numbers, 0)));
    tell_display(alloc, &running.show(duration_of(at(numbers, 1))), replies);
    replies.line("");
}

/// How long it has run.
pub(crate) fn time(numbers: &[u128], replies: &mut Replies) {
    let running = RunningTime::new(duration_of(at(numbers, 0)));
    tell_nanos(running.time(duration_of(at(numbers, 1))), replies);
}

/// How long it has run since a label was made, by a copy of it.
pub(crate) fn since_label(numbers: &[u128], replies: &mut Replies) {
    let now = duration_of(at(numbers, 2));
    let running = RunningTime::new(duration_of(at(numbers, 0)));
    let Ok(copy) = running.clone() else {
        return replies.done(false);
    };
    let label = copy.label(duration_of(at(numbers, 1)));
    if label <= running.time(now) {
        tell_nanos(running.from_label(now, label), replies);
    } else {
        replies.skipped();
    }
}
