//! A wrong reading of the number of trials, of the search that it stops, or of the reply would show in the records.

use crate::common::wrong_searches::*;
use crate::common::wrong_within::{assert_shown, halved, Reading, Wrong, RIGHT};
use reference::best::cover_exists;
use reference::districts::Record;
use reference::within::Known;

/// Readings of the search.
const OF_SEARCH: [Wrong; 22] = [
    ("p after 0", Reading { search: |put| put.searched(put.p + 1), ..RIGHT }),
    ("p after 0 and the sum", Reading { search: |put| put.searched(put.p + 2), ..RIGHT }),
    (
        "p after 0 and the sum, those counted",
        Reading {
            search: |put| put.searched(put.p + 2),
            trials: |come, _| come.made().saturating_sub(2),
            ..RIGHT
        },
    ),
    ("p - 1 in all", Reading { search: |put| put.searched(put.p - 1), ..RIGHT }),
    ("always 33", Reading { search: |put| put.searched(33), ..RIGHT }),
    ("always 2", Reading { search: |put| put.searched(2), ..RIGHT }),
    ("the sum first", Reading { search: sum_first, ..RIGHT }),
    ("0 not tried", Reading { search: without_0, ..RIGHT }),
    (
        "halving rounded up",
        Reading { search: |p| halved(p, |low, high| (low + high).div_ceil(2), 1), ..RIGHT },
    ),
    ("half of high", Reading { search: |put| halved(put, |_, high| high / 2, 1), ..RIGHT }),
    (
        "a third",
        Reading {
            search: |put| halved(put, |low, high| low + (high - low).div_ceil(3), 1),
            ..RIGHT
        },
    ),
    ("one below high", Reading { search: |put| halved(put, |_, high| high - 1, 1), ..RIGHT }),
    ("ended at 2", Reading { search: |put| halved(put, |low, high| (low + high) / 2, 2), ..RIGHT }),
    ("an accepted middle becomes low", Reading { search: turned_round, ..RIGHT }),
    ("low past the middle", Reading { search: past_the_middle, ..RIGHT }),
    ("gone on until accepted", Reading { search: until_accepted, ..RIGHT }),
    ("high tried once more", Reading { search: high_once_more, ..RIGHT }),
    ("even steps", Reading { search: even_steps, ..RIGHT }),
    ("high down to the heaviest", Reading { search: down_to_the_heaviest, ..RIGHT }),
    ("the weights as given", Reading { search: |put| summing(put, put.given), ..RIGHT }),
    ("the edges that join", Reading { search: |put| summing(put, joining(put)), ..RIGHT }),
    ("from the largest limit", Reading { search: |put| summing(put, 2_048_000_000), ..RIGHT }),
];

/// Readings of the reply.
const OF_REPLIES: [Wrong; 8] = [
    ("the best limit's", Reading { filed: |_, put| whole(put), ..RIGHT }),
    ("the best limit's trees", Reading { filed: |come, put| (come.high, whole(put).1), ..RIGHT }),
    ("the last limit tried", Reading { filed: last_tried, ..RIGHT }),
    ("the sum's cover kept", Reading { filed: first_accepted, ..RIGHT }),
    ("the lightest cover", Reading { filed: lightest, ..RIGHT }),
    (
        "heaviest as limit",
        Reading { filed: |c, p| (p.heaviest(&c.cover), c.cover.clone()), ..RIGHT },
    ),
    ("low as limit", Reading { filed: |come, _| (come.low, come.cover.clone()), ..RIGHT }),
    (
        "the floor as limit",
        Reading { filed: |c, p| ((RIGHT.floor)(c, p), c.cover.clone()), ..RIGHT },
    ),
];

/// Readings of what may be asked for.
const OF_P: [Wrong; 14] = [
    (
        "56 below 1 only",
        Reading { is_lawful: |p| (1..=33).contains(&p), search: one_trial, ..RIGHT },
    ),
    ("1 taken as 2", Reading { p: |p| if p == 1 { 2 } else { p }, ..RIGHT }),
    ("below 2 taken as 2", Reading { p: |p| p.max(2), ..RIGHT }),
    ("56 below 3", Reading { is_lawful: |p| (3..=33).contains(&p), ..RIGHT }),
    ("56 above 31", Reading { is_lawful: |p| (2..=31).contains(&p), ..RIGHT }),
    ("56 above 32", Reading { is_lawful: |p| (2..=32).contains(&p), ..RIGHT }),
    ("56 above 34", Reading { is_lawful: |p| (2..=34).contains(&p), ..RIGHT }),
    ("above 33 taken as 33", Reading { p: |p| p.min(33), ..RIGHT }),
    ("56 above 255", Reading { is_lawful: |p| (2..=255).contains(&p), ..RIGHT }),
    ("0 for no bound", Reading { p: |p| if p == 0 { 33 } else { p }, ..RIGHT }),
    ("the low byte read", Reading { p: |p| p % (1 << 8), ..RIGHT }),
    ("two low bytes read", Reading { p: |p| p % (1 << 16), ..RIGHT }),
    ("three low bytes read", Reading { p: |p| p % (1 << 24), ..RIGHT }),
    ("unread", Reading { p: |_| 33, ..RIGHT }),
];

/// Readings of the place of 56.
const OF_ORDER: [Wrong; 13] = [
    ("56 before 23", Reading { behind: &[23], ..RIGHT }),
    ("56 before 55", Reading { behind: &[55, 23], ..RIGHT }),
    ("56 before 55, behind 23", Reading { behind: &[55], ..RIGHT }),
    ("56 before 21", Reading { behind: &[21, 55, 23], ..RIGHT }),
    ("56 before 21 alone", Reading { behind: &[21], ..RIGHT }),
    ("56 before 54", Reading { behind: &[54, 21, 55, 23], ..RIGHT }),
    ("56 before 54 alone", Reading { behind: &[54], ..RIGHT }),
    ("56 before 53", Reading { behind: &[53, 54, 21, 55, 23], ..RIGHT }),
    ("56 before 53 alone", Reading { behind: &[53], ..RIGHT }),
    ("56 before the sheet's", Reading { behind: &[11, 12, 13, 14, 15, 16], ..RIGHT }),
    ("22 in its place", Reading { number: 22, ..RIGHT }),
    (
        "56 after no cover",
        Reading { is_passed: |put| !cover_exists(put.kind, put.graph, put.roots), ..RIGHT },
    ),
    ("not where one trial does", Reading { is_passed: |put| put.trial(0).is_some(), ..RIGHT }),
];

/// Readings of "no cover" and of the lists.
const OF_THE_REST: [Wrong; 8] = [
    ("no cover after the trial at 0", Reading { without: |_| known(1, 0, false), ..RIGHT }),
    ("no cover after the sum's", Reading { without: |_| known(2, 0, false), ..RIGHT }),
    ("no cover after all", Reading { without: |put| known(put.p, 0, false), ..RIGHT }),
    ("no cover with a floor", Reading { without: |put| known(0, put.sum + 1, false), ..RIGHT }),
    ("no cover with floor 1", Reading { without: |_| known(0, 1, false), ..RIGHT }),
    ("no cover spent", Reading { without: |_| known(0, 0, true), ..RIGHT }),
    ("classes unread", Reading { read: |r| Record { classes: None, ..r.clone() }, ..RIGHT }),
    ("vans unread", Reading { read: |r| Record { vans: None, ..r.clone() }, ..RIGHT }),
];

/// What is said to be known.
const fn known(trials: u64, floor: u64, spent: bool) -> Known {
    Known { trials, floor, spent }
}

#[test]
fn a_wrong_search_or_reply_would_show() {
    assert_shown(&[&OF_SEARCH[..], &OF_REPLIES].concat());
}

#[test]
fn a_wrong_number_of_trials_or_order_would_show() {
    assert_shown(&[&OF_P[..], &OF_ORDER, &OF_THE_REST].concat());
}
