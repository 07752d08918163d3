//! Questions on averages of numbers.

use super::decimals::places_of;
use super::shown::{tell_debug, tell_display};
use super::{at, short, short_at};
use crate::replies::Replies;
use giputils_stat::statistic::{Average, MovingAverage};
use std::alloc::Global;

/// The text of the average of the numbers.
pub(crate) fn text(alloc: Global, numbers: &[u128], replies: &mut Replies) {
    tell_debug(alloc, &average_of(numbers), replies);
    replies.line("");
}

/// The sum of the numbers.
pub(crate) fn sum(numbers: &[u128], replies: &mut Replies) {
    replies.shown(&average_of(numbers).sum());
    replies.line("");
}

/// The text of the mean of the numbers behind the first, which is how many decimals it has, or `none`.
pub(crate) fn mean(alloc: Global, numbers: &[u128], replies: &mut Replies) {
    let average = average_of(numbers.get(1..).unwrap_or(&[]));
    match average.mean(places_of(at(numbers, 0))) {
        Some(mean) => tell_display(alloc, &mean, replies),
        None => replies.piece("none"),
    }
    replies.line("");
}

/// What a moving average tells at first, after each number behind the first, which is its room, and at the end.
pub(crate) fn moving(alloc: Global, numbers: &[u128], replies: &mut Replies) {
    match MovingAverage::with_room(alloc, short_at(numbers, 0)) {
        Ok(mut average) => tell_moving(alloc, &mut average, numbers, replies),
        Err(_) => replies.done(false),
    }
}

fn tell_moving(
    alloc: Global,
    average: &mut MovingAverage,
    numbers: &[u128],
    replies: &mut Replies,
) {
    tell_debug(alloc, average, replies);
    for number in numbers.get(1..).unwrap_or(&[]) {
        average.push(short(*number));
        replies.piece(" ");
        tell_debug(alloc, average, replies);
    }
    replies.piece(if average.is_full() {
        " full "
    } else {
        " open "
    });
    replies.shown(&average.average().count());
    replies.piece(" ");
    average.clear();
    tell_debug(alloc, average, replies);
    replies.line("");
}

// The average of the numbers, as far as they can be counted.
fn average_of(numbers: &[u128]) -> Average {
    let mut average = Average::default();
    for number in numbers {
        if average.can_add() {
            average += short(*number);
        }
    }
    average
}
