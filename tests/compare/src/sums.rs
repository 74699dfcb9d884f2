//! Running sums among the buffers of a call, in front of all others.

use hankboulder_reference::problem::{ENTRY_RANGE, LIMIT_RANGE, LINEAR_RANGE};
use hankboulder_reference::sums::LentSums;

use crate::act::Call;
use crate::counts::{one_beyond, Kind};
use crate::numbers;

/// The sums of a call whose buffers have whole numbers, as numbers.
pub fn lists(call: &Call) -> [Vec<i64>; 5] {
    std::array::from_fn(|place| numbers(&call.buffers[place]))
}

/// What is made of sums that are lent.
pub fn with_lent<T>(lists: &mut [Vec<i64>; 5], act: impl FnOnce(LentSums) -> T) -> T {
    let [low, high, linear_low, linear_high, running_limit] = lists;
    act(LentSums {
        low,
        high,
        linear_low,
        linear_high,
        running_limit,
    })
}

/// The kind of the sums that are beyond their range, where it is one alone.
pub fn beyond(lists: &[Vec<i64>; 5]) -> Option<Kind> {
    let kinds = [
        (Kind::Low, ENTRY_RANGE),
        (Kind::High, ENTRY_RANGE),
        (Kind::LinearLow, LINEAR_RANGE),
        (Kind::LinearHigh, LINEAR_RANGE),
        (Kind::RunningLimit, LIMIT_RANGE),
    ];
    let lists = lists.iter().zip(kinds);
    let of_kinds: Vec<_> = lists.map(|(list, (k, r))| (k, list.clone(), r)).collect();
    one_beyond(&of_kinds)
}

/// Fails where the library does not read the sums that a call has left, with no allowance.
pub fn confirm_read(after: &Call) {
    let running = numbers(&after.buffers[4])[0];
    let sums = std::array::from_fn(|place| after.buffers[place].clone());
    let limit = crate::read_sums::given(after.n, sums, running, 0);
    assert_eq!(limit, Ok(running), "{after:?}");
}
