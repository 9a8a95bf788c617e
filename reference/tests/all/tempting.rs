//! Graphs on which a tempting mistake would show, worked out by hand.

use crate::common::{input, N};
use reference::graph::sheet;
use reference::judge_text::{judge, Verdict};
use reference::made_shapes::{CHAIN, CROWD, HALVES, LOOP};
use reference::rounds::rounds;

/// Name, question number, k, limit, vertices, edges (end, end, weight) and the text due.
type Row = (&'static str, usize, usize, u64, usize, &'static [(usize, usize, u64)], &'static str);

const ROWS: &[Row] = &[
    (
        "distance to the nearest vertex of a part, not to where it was split off",
        1,
        2,
        5,
        4,
        CHAIN,
        "cover 5 10 2\ntree 0 5 0\ntree 1 10 1 2\n",
    ),
    ("the union is thinned", 1, 2, 9, 7, LOOP, "cover 9 19 2\ntree 0 9 6\ntree 1 19 0 1 2 3 5\n"),
    (
        "roots are joined from the start, without an edge",
        1,
        2,
        2,
        3,
        &[(0, 2, 1), (1, 2, 1)],
        "cover 2 1 2\ntree 0 1 0\ntree 1 0\n",
    ),
    (
        "an edge between roots is never kept",
        1,
        2,
        2,
        3,
        &[(0, 1, 1), (1, 2, 1)],
        "cover 2 1 2\ntree 0 0\ntree 1 1 1\n",
    ),
    ("accepted at 7", 2, 2, 7, 6, HALVES, "cover 7 13 2\ntree 0 11 3 4\ntree 1 13 0 1\n"),
    ("and not at 8", 2, 2, 8, 6, HALVES, "too low needs 3\n"),
    (
        "so the search ends at 9",
        4,
        2,
        0,
        6,
        HALVES,
        "cover 9 21 2\ntree 0 11 3 4\ntree 1 21 0 1 2\n",
    ),
    ("not at 8", 1, 3, 8, 9, CROWD, "too low stop 6\n"),
    ("accepted at 9 (below), not at 10", 1, 3, 10, 9, CROWD, "too low parts 2 yards 1\n"),
    (
        "trees with one start by smallest edge, the part first",
        2,
        2,
        4,
        4,
        &[(0, 1, 4), (0, 2, 4), (0, 3, 1)],
        "cover 4 8 2\ntree 0 8 0 1\ntree 0 1 2\n",
    ),
    (
        "trees with one start by smallest edge, the leftover first",
        2,
        2,
        4,
        4,
        &[(0, 1, 1), (0, 2, 4), (2, 3, 4)],
        "cover 4 8 2\ntree 0 1 0\ntree 0 8 1 2\n",
    ),
    (
        "a bare leftover is no tree where its component has a part",
        2,
        2,
        4,
        3,
        &[(0, 1, 4), (1, 2, 4)],
        "cover 4 8 1\ntree 0 8 0 1\n",
    ),
    (
        "an edge of exactly the limit is not dropped",
        1,
        1,
        5,
        2,
        &[(0, 1, 5)],
        "cover 5 5 1\ntree 0 5 0\n",
    ),
    (
        "edges of equal weight by number",
        2,
        1,
        9,
        3,
        &[(1, 2, 3), (0, 1, 3), (0, 2, 3)],
        "cover 9 6 1\ntree 0 6 0 1\n",
    ),
    (
        "two edges between one pair: the lighter",
        4,
        1,
        0,
        2,
        &[(0, 1, 3), (1, 0, 2)],
        "cover 2 2 1\ntree 0 2 1\n",
    ),
    (
        "a part far from every root",
        1,
        1,
        2,
        4,
        &[(0, 1, 2), (1, 2, 2), (2, 3, 2)],
        "too low parts 3 yards 1\n",
    ),
];

#[test]
fn tempting_mistakes_would_show() {
    for &(name, question, k, limit, n, edges, due) in ROWS {
        let asked = input(question, k, limit, &sheet(n, edges));
        assert_eq!(judge(&asked, due), Verdict::Yes, "{name}");
        if !due.starts_with("too low parts 3") {
            assert_eq!(rounds(&asked), due, "{name}");
        }
    }
}

#[test]
fn accepted_does_not_persist_for_larger_limits() {
    let crowd = sheet(9, CROWD);
    assert!(rounds(&input(1, 3, 9, &crowd)).starts_with("cover 9 "));
    assert!(rounds(&input(1, 3, 11, &crowd)).starts_with("cover 11 "));
    assert!(rounds(&input(3, 3, 0, &crowd)).starts_with("cover 11 "));
}

#[test]
fn wrong_texts_of_tempting_mistakes_are_not_passed() {
    type Row = (usize, usize, u64, usize, &'static [(usize, usize, u64)], &'static str);
    let rows: &[Row] = &[
        (1, 2, 9, 7, LOOP, "cover 9 22 2\ntree 0 9 6\ntree 1 22 0 1 2 3 4 5\n"),
        (1, 2, 9, 7, LOOP, "cover 9 20 2\ntree 0 9 6\ntree 1 20 0 1 2 4 5\n"),
        (1, 2, 4, 4, N, "cover 4 11 2\ntree 0 0\ntree 1 11 0 1 2\n"),
        (1, 2, 5, 4, CHAIN, "too low parts 2 yards 1\n"),
        (1, 2, 2, 3, &[(0, 2, 1), (1, 2, 1)], "cover 2 1 2\ntree 0 1 0\ntree 1 1 1\n"),
        (4, 2, 0, 6, HALVES, "cover 7 13 2\ntree 0 11 3 4\ntree 1 13 0 1\n"),
    ];
    for &(question, k, limit, n, edges, wrong) in rows {
        let asked = input(question, k, limit, &sheet(n, edges));
        assert!(matches!(judge(&asked, wrong), Verdict::No(_)), "{wrong}");
    }
}
