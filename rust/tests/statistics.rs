//! The generated sheets reach everything there is to reach.

use second_evaluator::statistics::Statistics;

#[test]
fn everything_but_stuck_is_reached() {
    let statistics = Statistics::over(0..3_000);
    assert_eq!(statistics.missing(), ["stuck"], "{statistics}");
}
