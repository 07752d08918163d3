//! How far statistics can be merged and added to.

use giputils_stat::statistic::{Average, AverageDuration, CountedDuration, SuccessRate};
use std::time::Duration;

#[test]
fn an_average_merged_with_itself_ends_at_the_greatest_count(rt: HostRuntime) {
    let mut average = Average::default();
    average += 0;
    for _ in 0..63u32 {
        assert!(rt; average.can_merge(&average));
        let same = average;
        average += same;
    }
    assert!(rt; average.count() == 9_223_372_036_854_775_808);
    assert!(rt; !average.can_merge(&average));
    assert!(rt; average.can_add());
}

#[test]
fn a_sum_of_durations_ends_at_the_longest(rt: HostRuntime) {
    let mut average = AverageDuration::default();
    average += Duration::MAX;
    assert!(rt; average.can_add(Duration::ZERO));
    assert!(rt; !average.can_add(Duration::from_nanos(1)));
}

#[test]
fn a_counted_sum_of_durations_ends_at_the_longest(rt: HostRuntime) {
    let mut counted = CountedDuration::default();
    counted += Duration::MAX;
    assert!(rt; counted.can_add(Duration::ZERO));
    assert!(rt; !counted.can_add(Duration::from_nanos(1)));
    assert!(rt; !counted.can_merge(&counted));
}

#[test]
fn successes_and_failures_are_bounded_together(rt: HostRuntime) {
    let mut rate = SuccessRate::default();
    rate.success();
    let mut failures = SuccessRate::default();
    failures.fail();
    for _ in 0..63u32 {
        assert!(rt; rate.can_merge(&rate));
        let same = rate;
        rate += same;
        assert!(rt; failures.can_merge(&failures));
        let same = failures;
        failures += same;
    }
    assert!(rt; rate.count() == 9_223_372_036_854_775_808);
    assert!(rt; failures.count() == 9_223_372_036_854_775_808);
    assert!(rt; !rate.can_merge(&failures));
    assert!(rt; rate.can_merge(&SuccessRate::default()));
}
