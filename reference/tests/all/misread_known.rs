//! A wrong reading of the trials made, of the floor or of "spent" would show in the records.

use crate::common::wrong_within::{assert_shown, Come, Reading, Wrong, RIGHT};

/// Readings of the floor.
const OF_FLOORS: [Wrong; 13] = [
    ("the floor is low", Reading { floor: |come, _| come.low, ..RIGHT }),
    ("the floor is high", Reading { floor: |come, _| come.high, ..RIGHT }),
    ("low + 1 where 0 was accepted", Reading { floor: |come, _| come.low + 1, ..RIGHT }),
    ("the floor is always 0", Reading { floor: |_, _| 0, ..RIGHT }),
    ("the floor is always 1", Reading { floor: |_, _| 1, ..RIGHT }),
    (
        "0 as long as only 0 was refused",
        Reading { floor: |c, p| if c.low == 0 { 0 } else { (RIGHT.floor)(c, p) }, ..RIGHT },
    ),
    (
        "no floor if spent",
        Reading { floor: |c, _| if c.apart() > 1 { 0 } else { c.high }, ..RIGHT },
    ),
    ("low if spent", Reading { floor: |c, _| if c.apart() > 1 { c.low } else { c.high }, ..RIGHT }),
    ("the next middle", Reading { floor: |come, _| (come.low + come.high) / 2, ..RIGHT }),
    ("low + 2", Reading { floor: |c, _| if c.high == 0 { 0 } else { c.low + 2 }, ..RIGHT }),
    ("a quarter", Reading { floor: |come, put| put.heaviest(&come.cover).div_ceil(4), ..RIGHT }),
    ("heaviest tree", Reading { floor: |come, put| put.heaviest(&come.cover), ..RIGHT }),
    (
        "at least the heaviest edge",
        Reading {
            floor: |come, put| {
                let edges = put.graph.edges.iter().map(|edge| edge.weight);
                (RIGHT.floor)(come, put).max(edges.max().unwrap_or(0))
            },
            ..RIGHT
        },
    ),
];

/// Readings of "spent".
const OF_SPENT: [Wrong; 11] = [
    ("spent at a difference of 1", Reading { is_spent: |come, _| come.apart() > 0, ..RIGHT }),
    ("spent above 2 only", Reading { is_spent: |come, _| come.apart() > 2, ..RIGHT }),
    ("spent when p were made", Reading { is_spent: |come, put| come.made() == put.p, ..RIGHT }),
    ("spent when fewer were made", Reading { is_spent: |come, put| come.made() < put.p, ..RIGHT }),
    ("spent never", Reading { is_spent: |_, _| false, ..RIGHT }),
    ("spent always", Reading { is_spent: |_, _| true, ..RIGHT }),
    ("spent turned round", Reading { is_spent: |come, _| come.apart() <= 1, ..RIGHT }),
    ("spent unless 0 was accepted", Reading { is_spent: |come, _| come.high > 0, ..RIGHT }),
    ("spent if 0 was too", Reading { is_spent: |c, _| c.high == 0 || c.apart() > 1, ..RIGHT }),
    (
        "spent by the heaviest",
        Reading { is_spent: |c, p| p.heaviest(&c.cover) > (RIGHT.floor)(c, p), ..RIGHT },
    ),
    (
        "spent if the last was refused",
        Reading { is_spent: |c, _| c.tried.last().is_some_and(|t| t.1.is_none()), ..RIGHT },
    ),
];

/// Readings of the trials made.
const OF_TRIALS: [Wrong; 10] = [
    ("the trial at 0 not counted", Reading { trials: |come, _| come.made() - 1, ..RIGHT }),
    ("the sum not counted", Reading { trials: |c, _| c.made() - u64::from(c.made() > 1), ..RIGHT }),
    ("neither counted", Reading { trials: |come, _| come.made().saturating_sub(2), ..RIGHT }),
    ("always p", Reading { trials: |_, put| put.p, ..RIGHT }),
    ("those left", Reading { trials: |come, put| put.p - come.made(), ..RIGHT }),
    ("two at least", Reading { trials: |come, _| come.made().max(2), ..RIGHT }),
    ("one too many", Reading { trials: |come, _| come.made() + 1, ..RIGHT }),
    (
        "none where 0 was accepted",
        Reading { trials: |c, _| if c.high == 0 { 0 } else { c.made() }, ..RIGHT },
    ),
    ("those accepted", Reading { trials: |come, _| came_to(come, true), ..RIGHT }),
    ("those refused", Reading { trials: |come, _| came_to(come, false), ..RIGHT }),
];

/// How many of the trials were accepted, or were not.
fn came_to(come: &Come, is_accepted: bool) -> u64 {
    come.tried.iter().filter(|tried| tried.1.is_some() == is_accepted).count() as u64
}

#[test]
fn a_wrong_reading_would_show() {
    assert_shown(&[&OF_FLOORS[..], &OF_SPENT, &OF_TRIALS].concat());
}
