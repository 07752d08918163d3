//! Questions on statistics: their texts, and what they tell.
//!
//! A line is the name of a question and numbers; durations and moments are in nanoseconds.
//!
//! - `decimal NUMERATOR DENOMINATOR PLACES` and `percent PART WHOLE PLACES`: the text of a fraction.
//! - `average NUMBER..`, `average_sum NUMBER..` and `average_mean PLACES NUMBER..`: the text of an average, its sum, and
//!   the text of its mean or `none`.
//! - `moving_average ROOM NUMBER..`: the text at first and after each number, `full` or `open`, how many numbers are kept,
//!   and the text once they are forgotten.
//! - `average_duration DURATION..`, `average_duration_sum DURATION..`, `average_duration_mean DURATION..`,
//!   `counted_duration DURATION..` and `counted_duration_sum DURATION..`: the same of durations.
//! - `doubled_average TIMES DURATION`: how many durations are in an average that is added to itself so often, and its text.
//! - `success_rate SUCCESSES FAILURES` and `tried_rate SUCCESSES FAILURES`: the text of a rate that is told of a success by
//!   a call of its own, or by a truth value; `tries SUCCESSES FAILURES`: both numbers.
//! - `running_time BEGINNING NOW`, `time BEGINNING NOW` and `since_label BEGINNING LABELLED NOW`: the text of a running
//!   time, how long it has run, and how long since a label was made.

mod averages;
mod decimals;
mod durations;
mod rates;
mod shown;
mod times;

use crate::calls::Call;
use crate::replies::Replies;
use std::alloc::{AllocError, Global};

/// Answers each question.
pub(crate) fn replay(alloc: Global, questions: &str, replies: &mut Replies) {
    for line in questions.lines() {
        let call = Call::of(line);
        match numbers(alloc, call.words) {
            Ok(numbers) => answer(alloc, call.name, &numbers, replies),
            Err(_) => replies.done(false),
        }
    }
}

// The numbers of some words.
fn numbers(alloc: Global, words: &str) -> Result<Vec<u128>, AllocError> {
    let mut numbers = Vec::new(alloc);
    for word in words.split_whitespace() {
        numbers.push(word.parse().unwrap_or(0))?;
    }
    Ok(numbers)
}

// The number at a place, which is 0 where there is none.
fn at(numbers: &[u128], place: usize) -> u128 {
    numbers.get(place).copied().unwrap_or(0)
}

// The same as a number of 64 bits, which is the greatest one at most.
fn short_at(numbers: &[u128], place: usize) -> usize {
    short(at(numbers, place))
}

fn short(number: u128) -> usize {
    usize::try_from(number).unwrap_or(usize::MAX)
}

// Answers the question of this name over these numbers.
fn answer(alloc: Global, name: &str, numbers: &[u128], replies: &mut Replies) {
    match name {
        "decimal" => decimals::decimal(alloc, numbers, replies),
        "percent" => decimals::percent(alloc, numbers, replies),
        "average" => averages::text(alloc, numbers, replies),
        "average_sum" => averages::sum(numbers, replies),
        "average_mean" => averages::mean(alloc, numbers, replies),
        "moving_average" => averages::moving(alloc, numbers, replies),
        "success_rate" => rates::success_rate(alloc, numbers, replies),
        "tried_rate" => rates::tried_rate(alloc, numbers, replies),
        "tries" => rates::tries(numbers, replies),
        _ => answer_of_times(alloc, name, numbers, replies),
    }
}

// The same of durations and moments.
fn answer_of_times(alloc: Global, name: &str, numbers: &[u128], replies: &mut Replies) {
    match name {
        "average_duration" => durations::average(alloc, numbers, replies),
        "average_duration_sum" => durations::average_sum(numbers, replies),
        "average_duration_mean" => durations::average_mean(numbers, replies),
        "counted_duration" => durations::counted(alloc, numbers, replies),
        "counted_duration_sum" => durations::counted_sum(numbers, replies),
        "doubled_average" => durations::doubled(alloc, numbers, replies),
        "running_time" => times::text(alloc, numbers, replies),
        "time" => times::time(numbers, replies),
        "since_label" => times::since_label(numbers, replies),
        _ => replies.unknown(),
    }
}
