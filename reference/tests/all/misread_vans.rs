//! A wrong reading of the list of vans would show in the records.

use crate::common::readings::{Reading, RIGHT};
use crate::common::wrong_van_lists::*;
use crate::common::wrong_vans::*;
use reference::best::cover_exists;
use reference::check::check_on;
use reference::cover::decode;
use reference::districts::{Asked, Record};
use reference::graph::read;
use reference::made_vans::listed_vans;
use reference::question::Kind;

/// A wrong reading: what is wrong with it, and of how many trials, best limits and checks what is printed must show it; 0
/// stands for none at all.
type Wrong = (&'static str, Reading, [usize; 3]);

/// Readings of the list's bytes.
const OF_BYTES: [Wrong; 22] = [
    (
        "the list unread",
        Reading { crews: |record, n| with_list(record, n, |_| None), ..RIGHT },
        [10, 10, 10],
    ),
    ("21 still compares k with n", Reading { crews: above_n_refused, ..RIGHT }, [10, 10, 10]),
    ("a repeated vertex refused", Reading { crews: repeats_refused, ..RIGHT }, [10, 10, 10]),
    (
        "the bytes of a number swapped",
        Reading { crews: |record, n| with_numbers(record, n, |_, [a, b]| [b, a]), ..RIGHT },
        [10, 10, 10],
    ),
    (
        "the low byte alone read",
        Reading { crews: |record, n| with_numbers(record, n, |_, [a, _]| [a, 0]), ..RIGHT },
        [3, 2, 3],
    ),
    (
        "the list sorted first",
        Reading { crews: |record, n| reordered(record, n, |l| l.sort_unstable()), ..RIGHT },
        [10, 10, 10],
    ),
    (
        "the list read from its end",
        Reading { crews: |record, n| reordered(record, n, |l| l.reverse()), ..RIGHT },
        [10, 10, 10],
    ),
    (
        "a vertex named twice read once",
        Reading { crews: |record, n| reordered(record, n, |l| *l = once(l)), ..RIGHT },
        [10, 10, 10],
    ),
    (
        "a shorter list read as far as it goes",
        Reading { crews: as_far_as_it_goes, ..RIGHT },
        [5, 5, 5],
    ),
    ("a shorter list filled up", Reading { crews: filled_up, ..RIGHT }, [5, 5, 5]),
    ("a longer list cut", Reading { crews: cut, ..RIGHT }, [3, 2, 3]),
    (
        "a byte too many passed",
        Reading {
            crews: |record, n| {
                with_list(record, n, |list| Some(list[..list.len() / 2 * 2].to_vec()))
            },
            ..RIGHT
        },
        [3, 2, 3],
    ),
    (
        "an empty list taken for none",
        Reading {
            crews: |record, n| {
                with_list(record, n, |list| (!list.is_empty()).then(|| list.to_vec()))
            },
            ..RIGHT
        },
        [3, 2, 3],
    ),
    (
        "vertex n passed",
        Reading { crews: |record, n| wrapped(record, n, |_, vertex| vertex == n), ..RIGHT },
        [3, 2, 3],
    ),
    (
        "any vertex passed",
        Reading { crews: |record, n| wrapped(record, n, |_, _| true), ..RIGHT },
        [5, 5, 5],
    ),
    (
        "the first vertex not looked at",
        Reading { crews: |record, n| wrapped(record, n, |j, _| j == 0), ..RIGHT },
        [3, 2, 3],
    ),
    (
        "the last vertex not looked at",
        Reading { crews: |record, n| wrapped(record, n, |j, _| j + 1 == record.k), ..RIGHT },
        [3, 2, 3],
    ),
    ("a list refused without roots", Reading { crews: read_without_roots, ..RIGHT }, [10, 10, 10]),
    ("a wrong list taken for none", Reading { crews: wrong_list_is_none, ..RIGHT }, [3, 2, 3]),
    ("k above n without a list", Reading { crews: unlisted_above_n, ..RIGHT }, [1, 1, 1]),
    (
        "0 to k - 1 for no cover",
        Reading {
            exists: |kind, graph, roots| {
                let row: Vec<usize> = (0..roots.len()).map(|j| j % graph.n).collect();
                cover_exists(kind, graph, row)
            },
            ..RIGHT
        },
        [0, 3, 0],
    ),
    (
        "no cover for more vans than vertices",
        Reading {
            exists: |kind, graph, roots| {
                let is_few = kind == Kind::Unrooted || roots.len() <= graph.n;
                is_few && cover_exists(kind, graph, roots)
            },
            ..RIGHT
        },
        [0, 5, 0],
    ),
];

/// Readings of the order of numbers.
const OF_ORDER: [Wrong; 5] = [
    ("55 after 22", Reading { admitted: after_22, ..RIGHT }, [10, 0, 0]),
    ("55 after 23", Reading { admitted: after_23, ..RIGHT }, [10, 10, 0]),
    ("55 after 31", Reading { admitted: after_31, ..RIGHT }, [0, 0, 10]),
    (
        "55 before 21",
        Reading { admitted: |_, record| early(record, record.brought().graph()?.n), ..RIGHT },
        [5, 5, 5],
    ),
    (
        "55 before 53",
        Reading { admitted: |_, record| early(record, read(&record.sheet)?.n), ..RIGHT },
        [5, 5, 5],
    ),
];

/// Readings of the trial and of the cover.
const OF_TRIALS: [Wrong; 16] = [
    ("left to the highest van", Reading { run: left_to_highest, ..RIGHT }, [10, 3, 0]),
    ("left to each van", Reading { run: left_to_each, ..RIGHT }, [10, 3, 0]),
    ("left or a part", Reading { run: left_or_part, ..RIGHT }, [5, 5, 0]),
    ("D counts stops", Reading { run: counting_stops, ..RIGHT }, [10, 0, 0]),
    ("D counts all vans", Reading { run: counting_all, ..RIGHT }, [10, 0, 0]),
    ("one part a stop", Reading { run: one_part_a_stop, ..RIGHT }, [10, 10, 0]),
    ("vans at one stop are one", Reading { run: merged, ..RIGHT }, [10, 10, 0]),
    ("later vans at a stop dropped", Reading { run: dropped, ..RIGHT }, [10, 10, 0]),
    ("bare later vans dropped", Reading { run: dropped_if_bare, ..RIGHT }, [10, 10, 0]),
    ("distances from 0 to k - 1", Reading { run: measured_in_a_row, ..RIGHT }, [10, 10, 0]),
    ("paths from 0 to k - 1", Reading { run: led_from_a_row, ..RIGHT }, [10, 10, 0]),
    ("rooted at the lowest", Reading { run: rooted_at_lowest, ..RIGHT }, [10, 10, 0]),
    ("0 to k - 1 joined", Reading { run: joined_in_a_row, ..RIGHT }, [10, 10, 0]),
    ("unjoined from k on", Reading { run: unjoined_from_k_on, ..RIGHT }, [10, 10, 0]),
    ("started at 0 to k - 1", Reading { run: started_in_a_row, ..RIGHT }, [10, 10, 0]),
    ("started at the lowest", Reading { run: started_at_lowest, ..RIGHT }, [10, 10, 0]),
];

/// Readings of rule 32.
const OF_STARTS: [Wrong; 6] = [
    (
        "32 compares with 0 to k - 1",
        Reading {
            check: |kind, graph, roots, cover| check_on(kind, graph, roots.len(), cover),
            ..RIGHT
        },
        [0, 0, 10],
    ),
    (
        "starts in any order",
        Reading {
            check: |kind, graph, roots, cover| {
                starting((kind, graph, roots, cover), |starts| sorted(starts) == sorted(roots))
            },
            ..RIGHT
        },
        [0, 0, 10],
    ),
    (
        "any start that has a van",
        Reading {
            check: |kind, graph, roots, cover| {
                starting((kind, graph, roots, cover), |starts| {
                    starts.len() == roots.len() && starts.iter().all(|start| roots.contains(start))
                })
            },
            ..RIGHT
        },
        [0, 0, 10],
    ),
    (
        "starts not compared",
        Reading {
            check: |kind, graph, roots, cover| {
                starting((kind, graph, roots, cover), |starts| starts.len() == roots.len())
            },
            ..RIGHT
        },
        [0, 0, 10],
    ),
    (
        "a tree for each stop",
        Reading {
            check: |kind, graph, roots, cover| match kind {
                Kind::Rooted => check_on(kind, graph, once(roots), cover),
                Kind::Unrooted => check_on(kind, graph, roots, cover),
            },
            ..RIGHT
        },
        [0, 0, 10],
    ),
    (
        "a start twice refused",
        Reading {
            check: |kind, graph, roots, cover| match decode(cover) {
                Ok(filed) if kind == Kind::Rooted && once(&filed.starts) != filed.starts => Err(32),
                _ => check_on(kind, graph, roots, cover),
            },
            ..RIGHT
        },
        [0, 0, 10],
    ),
];

/// 0 for a trial, 1 for a search, 2 for a check.
fn place(record: &Record) -> usize {
    match record.asked {
        Asked::Trial { .. } => 0,
        Asked::Best { .. } | Asked::Within { .. } => 1,
        Asked::Check { .. } => 2,
    }
}

/// The records with a list but for the largest; the right reading shows in none of them.
fn small() -> Vec<Record> {
    let mut small = listed_vans();
    small.retain(|record| record.sheet.len() < 400);
    assert!(!small.iter().any(|record| RIGHT.shows(record) != (false, false)));
    small
}

/// Of how many trials, best limits and checks the judge sees that a reading is wrong, and what is printed shows it.
fn shown(records: &[Record], reading: &Reading) -> [[usize; 3]; 2] {
    let (mut judged, mut printed) = ([0; 3], [0; 3]);
    for record in records {
        let (is_wrong, is_printed) = reading.shows(record);
        judged[place(record)] += usize::from(is_wrong);
        printed[place(record)] += usize::from(is_printed);
    }
    [judged, printed]
}

#[test]
fn a_wrong_reading_would_show() {
    let small = small();
    let wrong = OF_BYTES.iter().chain(&OF_ORDER).chain(&OF_TRIALS).chain(&OF_STARTS);
    for (name, reading, least) in wrong {
        let [judged, printed] = shown(&small, reading);
        let is_enough = |i| printed[i] >= least[i] && (least[i] > 0 || judged[i] == 0);
        assert!((0..3).all(is_enough), "{name}: {printed:?} printed, {judged:?} judged");
    }
}

/// What is left to the lowest van without a part can be seen in full replies only: wherever a van at a vertex gets a part,
/// another van there could, so that nothing printed of the trees is fixed.
#[test]
fn what_is_left_to_an_idle_van_is_judged() {
    let [judged, printed] = shown(&small(), &Reading { run: left_to_idle, ..RIGHT });
    assert!(judged[0] >= 10 && judged[1] >= 10 && judged[2] == 0, "{judged:?}");
    assert_eq!(printed, [0; 3]);
}
