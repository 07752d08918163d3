//! The average of the last numbers.

use giputils_refusing::Refusing;
use giputils_stat::statistic::MovingAverage;
use std::test::Fail;

pub(crate) fn is_made(memory: &Refusing) -> bool {
    MovingAverage::with_room(memory, 3).is_ok()
}

// Puts five numbers into an average with room for three. Tells how many it counts and keeps, and its room.
fn filled(average: &mut MovingAverage<&Refusing>) -> (usize, usize, usize) {
    for number in 0..5 {
        average.push(number);
    }
    (average.average().count(), average.len(), average.capacity())
}

#[test]
fn a_moving_average_asks_for_its_memory_where_it_is_made(rt: HostRuntime) -> Result<(), Fail> {
    let memory = Refusing::from(rt.alloc(), 2);
    let mut average = MovingAverage::with_room(&memory, 3)?;
    assert!(rt; filled(&mut average) == (3, 3, 3));
    average.clear();
    assert!(rt; average.is_empty());
    assert!(rt; memory.requests() == 1);
    Ok(())
}
