//! Questions on fractions.

use super::shown::tell_display;
use super::{at, short};
use crate::replies::Replies;
use giputils_stat::decimal::Decimal;
use std::alloc::Global;

/// The text of a fraction.
pub(crate) fn decimal(alloc: Global, numbers: &[u128], replies: &mut Replies) {
    let decimal = Decimal {
        numerator: at(numbers, 0),
        denominator: divisor(at(numbers, 1)),
        places: places_of(at(numbers, 2)),
    };
    tell_display(alloc, &decimal, replies);
    replies.line("");
}

/// The text of how many of a hundred one number is of another.
pub(crate) fn percent(alloc: Global, numbers: &[u128], replies: &mut Replies) {
    let part = short(at(numbers, 0)) as u64;
    let decimal = Decimal::percent(part, divisor(at(numbers, 1)), places_of(at(numbers, 2)));
    tell_display(alloc, &decimal, replies);
    replies.line("");
}

/// A number of decimals: 1 where it is none, and 19 where it is greater.
pub(crate) fn places_of(number: u128) -> u32 {
    if number == 0 {
        1
    } else if number > 19 {
        19
    } else {
        number as u32
    }
}

// What a fraction is divided by: 1 where it is 0.
fn divisor(number: u128) -> u64 {
    let divisor = short(number) as u64;
    if divisor > 0 { divisor } else { 1 }
}
