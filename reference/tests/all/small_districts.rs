//! Every row of the list of small districts, and the printed example of sheet N.

use std::path::PathBuf;

use crate::common::{buffer, buffer_of, filing, graph_n, input, question, sheet_n, BOTH, N};
use reference::best::best;
use reference::check::check;
use reference::cover::{encode, Tree};
use reference::graph::sheet;
use reference::judge_text::{judge, Verdict};
use reference::optimum::optimum;
use reference::question::{Answer, Kind, BUFFER};
use reference::rounds::rounds;
use reference::trial::trial;
use Kind::{Rooted, Unrooted};

/// Kind, k, limit (none for the best limit) and the text printed for sheet N.
type Row = (Kind, usize, Option<u64>, &'static str);

const ROWS_OF_N: &[Row] = &[
    (Rooted, 2, Some(0), "too low stop 2\n"),
    (Rooted, 2, Some(2), "too low stop 2\n"),
    (Rooted, 2, Some(3), "too low parts 2 yards 1\n"),
    (Rooted, 2, Some(4), "cover 4 6 2\ntree 0 6 0 1\ntree 1 0\n"),
    (Rooted, 2, Some(7), "cover 7 6 2\ntree 0 6 0 1\ntree 1 0\n"),
    (Rooted, 2, None, "cover 4 6 2\ntree 0 6 0 1\ntree 1 0\n"),
    (Unrooted, 2, Some(3), "too low needs 3\n"),
    (Unrooted, 3, Some(3), "cover 3 6 2\ntree 0 6 0 1\ntree 1 0\n"),
    (Unrooted, 1, Some(5), "too low needs 2\n"),
    (Unrooted, 1, None, "cover 6 11 1\ntree 0 11 0 1 2\n"),
    (Unrooted, 3, Some(0), "too low needs 4\n"),
    (Unrooted, 4, Some(0), "cover 0 0 4\ntree 0 0\ntree 1 0\ntree 2 0\ntree 3 0\n"),
];

#[test]
fn rows_of_sheet_n() {
    for &(kind, k, limit, due) in ROWS_OF_N {
        let number = question(kind, limit.is_some());
        let asked = input(number, k, limit.unwrap_or(77), &sheet_n());
        assert_eq!(rounds(&asked), due, "{kind:?} k {k} limit {limit:?}");
        assert_eq!(judge(&asked, due), Verdict::Yes);
    }
}

#[test]
fn the_program_is_run_on_the_printed_example() {
    let folder = PathBuf::from(env!("CARGO_MANIFEST_DIR")).join("../crates/rounds");
    let filed = |name: &str| std::fs::read(folder.join(name)).expect(name);
    assert_eq!(filed("stdin"), input(1, 2, 4, &sheet_n()));
    assert_eq!(filed("stdout"), b"cover 4 6 2\ntree 0 6 0 1\ntree 1 0\n");
}

#[test]
fn at_limit_5_either_root_may_get_the_part() {
    let asked = input(1, 2, 5, &sheet_n());
    let either =
        ["cover 5 6 2\ntree 0 6 0 1\ntree 1 0\n", "cover 5 11 2\ntree 0 0\ntree 1 11 0 1 2\n"];
    assert!(either.contains(&rounds(&asked).as_str()));
    for text in either {
        assert_eq!(judge(&asked, text), Verdict::Yes);
    }
    let mixed = "cover 5 11 2\ntree 0 6 0 1\ntree 1 11 0 1 2\n";
    assert!(matches!(judge(&asked, mixed), Verdict::No(_)));
}

#[test]
fn at_limit_3_both_parts_are_written_with_their_starts() {
    let mut lent = buffer();
    let answer = trial(Rooted, &sheet_n(), 2, 3, &mut lent);
    assert_eq!(answer, Answer::Parts { parts: 2, roots: 1 });
    let written = encode(&[Tree::new(0, vec![0]), Tree::new(2, vec![1])]);
    assert_eq!(lent[..written.len()], written);
    assert_eq!(lent[written.len()..], buffer()[written.len()..]);
}

#[test]
fn another_cover_of_sheet_n_has_5() {
    assert_eq!(optimum(Rooted, &graph_n(), 2), Some(5));
    let filed = filing(&[0, 1], &[(0, 0), (1, 2)]);
    assert_eq!(check(Rooted, &sheet_n(), 2, &filed), Ok(5));
}

#[test]
fn one_vertex_and_two_apart() {
    for kind in BOTH {
        let alone = input(question(kind, true), 1, 0, &sheet(1, &[]));
        assert_eq!(rounds(&alone), "cover 0 0 1\ntree 0 0\n");
        let apart = input(question(kind, false), 1, 0, &sheet(2, &[]));
        assert_eq!(rounds(&apart), "no cover\n");
    }
}

#[test]
fn checks_on_sheet_n() {
    // Entries (tree, edge) and the answer of the check.
    type Row = (&'static [(usize, usize)], Result<u64, u16>);
    let rows: [Row; 4] = [
        (&[(0, 0), (0, 1)], Ok(6)),
        (&[(0, 1), (0, 0)], Err(33)),
        (&[(0, 0), (1, 1)], Err(34)),
        (&[(0, 0)], Err(35)),
    ];
    for (entries, due) in rows {
        let filed = filing(&[0, 1], entries);
        assert_eq!(check(Rooted, &sheet_n(), 2, &filed), due, "{entries:?}");
    }
}

#[test]
fn edges_of_the_allowed_ranges() {
    let many = sheet(256, &[]);
    let heavy = |weight| sheet(2, &[(0, 1, weight)]);
    let mut lent = buffer_of(BUFFER);
    let mut short = buffer_of(BUFFER - 1);
    for kind in BOTH {
        assert_ne!(trial(kind, &many, 32, 0, &mut lent), Answer::Refused(21));
        assert_eq!(trial(kind, &many, 33, 0, &mut lent), Answer::Refused(21));
        assert_eq!(best(kind, &many, 33, &mut lent), Answer::Refused(21));
        let passes = trial(kind, &heavy(1_000_000), 1, 1_000_000, &mut lent);
        let cover = (1_000_000, 1_000_000);
        assert!(matches!(passes, Answer::Cover { limit, heaviest } if (limit, heaviest) == cover));
        let refused = trial(kind, &heavy(1_000_001), 1, 1_000_000, &mut lent);
        assert_eq!(refused, Answer::Refused(16));
        let weightless = Answer::Cover { limit: 0, heaviest: 0 };
        assert_eq!(trial(kind, &heavy(0), 1, 0, &mut lent), weightless);
        assert_eq!(trial(kind, &sheet(4, N), 2, 3, &mut short), Answer::Refused(23));
        assert_eq!(best(kind, &sheet(4, N), 2, &mut short), Answer::Refused(23));
    }
}
