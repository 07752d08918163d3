//! Questions on rates of success.

use super::at;
use super::shown::tell_debug;
use crate::replies::Replies;
use giputils_stat::statistic::SuccessRate;
use std::alloc::Global;

/// The text of a rate that is told of each success and failure by a call of its own.
pub(crate) fn success_rate(alloc: Global, numbers: &[u128], replies: &mut Replies) {
    let mut rate = SuccessRate::default();
    for _ in 0..at(numbers, 0) {
        if rate.can_add() {
            rate.success();
        }
    }
    for _ in 0..at(numbers, 1) {
        if rate.can_add() {
            rate.fail();
        }
    }
    tell_debug(alloc, &rate, replies);
    replies.line("");
}

/// The text of a rate that is told of each success and failure by a truth value.
pub(crate) fn tried_rate(alloc: Global, numbers: &[u128], replies: &mut Replies) {
    tell_debug(alloc, &tried(numbers), replies);
    replies.line("");
}

/// How often a rate says that it succeeded and failed.
pub(crate) fn tries(numbers: &[u128], replies: &mut Replies) {
    let rate = tried(numbers);
    replies.shown(&rate.successes());
    replies.piece(" ");
    replies.shown(&rate.failures());
    replies.line("");
}

// The rate of so many successes and failures, each told by a truth value.
fn tried(numbers: &[u128]) -> SuccessRate {
    let mut rate = SuccessRate::default();
    add(&mut rate, at(numbers, 0), true);
    add(&mut rate, at(numbers, 1), false);
    rate
}

fn add(rate: &mut SuccessRate, times: u128, succeeds: bool) {
    for _ in 0..times {
        if rate.can_add() {
            rate.statistic(succeeds);
        }
    }
}
