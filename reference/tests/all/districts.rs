//! The records of the program `districts` and their text, against its files and against every allowed reply.

use std::collections::{BTreeMap, BTreeSet};
use std::path::PathBuf;

use crate::common::other::other_reply;
use crate::common::replies::all_replies;
use crate::common::{made_records as made, sheet_n, BOTH};
use reference::districts::{encode, text, Asked, Record};
use reference::fixed::is_fixed;
use reference::graph::{read, sheet, Graph};
use reference::judge_districts::own_reply;
use reference::made_districts::small_districts;
use reference::made_shapes::{ends, Shape};
use reference::question::{Answer, Kind, BUFFER};
use reference::random::Random;

/// A file of the program.
fn filed(name: &str) -> Vec<u8> {
    let folder = PathBuf::from(env!("CARGO_MANIFEST_DIR")).join("../crates/districts");
    std::fs::read(folder.join(name)).expect(name)
}

#[test]
fn the_files_are_what_this_package_makes() {
    assert!(filed("stdin") == encode(made()), "the records differ");
    assert!(filed("stdout") == text(made()).as_bytes(), "the text differs");
}

/// The rows of document 01 as it gives them; where it gives no numbers, as worked out by hand.
const ROWS: [&str; 45] = [
    "too low stop 2",
    "too low stop 2",
    "too low parts 2 yards 1",
    "cover 4 6 2",
    "cover 7 6 2",
    "cover 5 yes 2",
    "cover 4 6 2",
    "too low needs 3",
    "cover 3 6 2",
    "too low needs 2",
    "cover 6 11 1",
    "too low needs 4",
    "cover 0 0 4",
    "cover 0 0 1",
    "cover 0 0 1",
    "no cover",
    "no cover",
    "yes 5",
    "yes 6",
    "refused 33",
    "refused 34",
    "refused 35",
    // Rooted: k 32 and 33, the weights, the buffers.
    "cover 6 yes 32",
    "cover 2 yes 32",
    "yes 78",
    "refused 21",
    "refused 21",
    "refused 21",
    "cover 1000000 1000000 1",
    "cover 1000000 1000000 1",
    "yes 1000000",
    "refused 16",
    "refused 16",
    "refused 16",
    "cover 4 6 2",
    "cover 4 6 2",
    "refused 23",
    "refused 23",
    // Unrooted: k 32.
    "cover 6 12 7",
    "cover 2 4 20",
    "yes 78",
    "refused 21",
    "refused 21",
    "refused 21",
    "cover 1000000 1000000 1",
];

#[test]
fn the_rows_of_document_01_come_first() {
    let rows = small_districts();
    assert_eq!(made()[..rows.len()], rows);
    let text = text(&rows);
    let lines: Vec<&str> = text.lines().filter(|line| !line.starts_with("tree")).collect();
    assert_eq!(lines.len(), rows.len());
    assert_eq!(lines[..ROWS.len()], ROWS);
    assert_eq!(lines[ROWS.len()..].last(), Some(&"refused 23"));
    assert!(text.contains("cover 7 6 2\ntree 0 6 0 1\ntree 1 0\ncover 5 yes 2\n"));
}

#[test]
fn a_record_as_bytes() {
    let asked = Asked::Trial { limit: 2_048_000_001, room: 32_708 };
    let record = Record::plain(asked, Kind::Unrooted, 258, &[9, 8, 7]);
    let front = [2, 0, 2, 1, 1, 0, 0x12, 0x7a, 0xc4, 0x7f, 1, 0, 3, 0, 0, 0];
    let due = [&front[..], &[0; 8], &[9, 8, 7]].concat();
    assert_eq!(encode(&[record]), due);
    let asked = Asked::Check { cover: vec![5, 6] };
    let record = Record::plain(asked, Kind::Rooted, 2, &[9]);
    // The lists of classes and of vans, the fields that speak of them, and what follows the head.
    type List = Option<&'static [u8]>;
    type Row = (List, List, [u8; 6], &'static [u8]);
    let rows: [Row; 6] = [
        (None, None, [0, 0, 0, 0, 0, 0], &[9, 5, 6]),
        (Some(&[]), None, [1, 0, 0, 0, 0, 0], &[9, 5, 6]),
        (Some(&[60, 7, 255]), None, [1, 0, 3, 0, 0, 0], &[9, 5, 6, 60, 7, 255]),
        (None, Some(&[]), [2, 0, 0, 0, 0, 0], &[9, 5, 6]),
        (None, Some(&[3, 0, 2]), [2, 0, 0, 0, 3, 0], &[9, 5, 6, 3, 0, 2]),
        (Some(&[60]), Some(&[3, 0]), [3, 0, 1, 0, 2, 0], &[9, 5, 6, 60, 3, 0]),
    ];
    for (classes, vans, lists, behind) in rows {
        let [classes, vans] = [classes, vans].map(|list| list.map(<[u8]>::to_vec));
        let bytes = encode(&[Record { classes, vans, ..record.clone() }]);
        let due = [&[0, 0, 1, 0, 1, 0, 2, 0], &lists[..], &[0; 2], behind].concat();
        assert_eq!((&bytes[..4], &bytes[8..]), (&[5, 0, 2, 0][..], &due[..]), "{lists:?}");
    }
    let asked = Asked::Within { trials: 65_538, room: 32_708 };
    let record = Record::plain(asked, Kind::Unrooted, 2, &[9]);
    let front = [8, 0, 2, 0, 2, 0, 1, 0, 0xc4, 0x7f, 1, 0, 1, 0, 0, 0];
    assert_eq!(encode(&[record]), [&front[..], &[0; 8], &[9]].concat());
    let asked = Asked::Trial { limit: 5, room: 32_708 };
    let free = Record::plain(asked, Kind::Rooted, 2, &sheet_n());
    assert_eq!(encode(&[free])[10..12], [0, 0]);
}

#[test]
fn the_text_on_sheet_n() {
    // Kind, k, limit and the text due.
    let rows: [(Kind, usize, u64, &str); 12] = [
        (Kind::Rooted, 2, 2, "too low stop 2\n"),
        (Kind::Rooted, 2, 3, "too low parts 2 yards 1\n"),
        (Kind::Rooted, 2, 4, "cover 4 6 2\ntree 0 6 0 1\ntree 1 0\n"),
        (Kind::Rooted, 2, 5, "cover 5 yes 2\n"),
        (Kind::Rooted, 5, 4, "refused 21\n"),
        (Kind::Rooted, 2, 2_048_000_001, "refused 22\n"),
        (Kind::Unrooted, 2, 3, "too low needs 3\n"),
        (Kind::Unrooted, 3, 3, "cover 3 6 2\ntree 0 6 0 1\ntree 1 0\n"),
        (Kind::Unrooted, 3, 0, "too low needs 4\n"),
        (Kind::Unrooted, 4, 0, "cover 0 0 4\ntree 0 0\ntree 1 0\ntree 2 0\ntree 3 0\n"),
        (Kind::Unrooted, 1, 6, "cover 6 11 1\ntree 0 11 0 1 2\n"),
        (Kind::Unrooted, 33, 6, "refused 21\n"),
    ];
    let at = |kind, k, limit, sheet: &[u8]| {
        Record::plain(Asked::Trial { limit, room: BUFFER }, kind, k, sheet)
    };
    for (kind, k, limit, due) in rows {
        let said = text(&[at(kind, k, limit, &sheet_n())]);
        assert_eq!(said, due, "{kind:?} k {k} limit {limit}");
    }
    assert_eq!(text(&[at(Kind::Rooted, 1, 0, &sheet(2, &[(0, 0, 1)]))]), "refused 15\n");
    // With classes 0, 10 and 40 the edges weigh 3, 4 and 10.
    let listed = at(Kind::Unrooted, 1, 10, &sheet_n()).with_classes(&[0, 10, 40]);
    assert_eq!(text(&[listed]), "cover 10 17 1\ntree 0 17 0 1 2\n");
}

#[test]
fn the_text_of_a_number_of_trials_on_sheet_n() {
    // Kind, k, p and the text due.
    let rows: [(Kind, usize, u64, &str); 9] = [
        (Kind::Rooted, 2, 2, "cover 11 6 2\ntree 0 6 0 1\ntree 1 0\nknown 2 1 1\n"),
        (Kind::Rooted, 2, 3, "cover 5 yes 2\nknown 3 1 1\n"),
        (Kind::Rooted, 2, 5, "cover 5 yes 2\nknown 5 4 1\n"),
        (Kind::Rooted, 2, 6, "cover 4 6 2\ntree 0 6 0 1\ntree 1 0\nknown 6 4 0\n"),
        (Kind::Rooted, 2, 33, "cover 4 6 2\ntree 0 6 0 1\ntree 1 0\nknown 6 4 0\n"),
        (
            Kind::Unrooted,
            4,
            9,
            "cover 0 0 4\ntree 0 0\ntree 1 0\ntree 2 0\ntree 3 0\nknown 1 0 0\n",
        ),
        (Kind::Unrooted, 1, 4, "cover 8 11 1\ntree 0 11 0 1 2\nknown 4 6 1\n"),
        (Kind::Unrooted, 1, 34, "refused 56\nknown 0 0 0\n"),
        (Kind::Rooted, 5, 1, "refused 21\nknown 0 0 0\n"),
    ];
    let of = |kind, k, trials, sheet: &[u8]| {
        Record::plain(Asked::Within { trials, room: BUFFER }, kind, k, sheet)
    };
    for (kind, k, p, due) in rows {
        assert_eq!(text(&[of(kind, k, p, &sheet_n())]), due, "{kind:?} k {k} p {p}");
    }
    assert_eq!(text(&[of(Kind::Rooted, 1, 2, &sheet(2, &[]))]), "no cover\nknown 0 0 0\n");
}

#[test]
fn the_records_are_many_and_meet_every_line() {
    let sheets = |kind| {
        let here = made().iter().filter(|record| record.kind == kind);
        here.map(|record| &record.sheet).collect::<BTreeSet<_>>().len()
    };
    assert!(BOTH.iter().all(|&kind| sheets(kind) > 300));
    assert!(encode(made()).len() < 4_300_000);
    let mut met: BTreeMap<String, usize> = BTreeMap::new();
    for line in text(made()).lines() {
        let words: Vec<&str> = line.split(' ').collect();
        let opening = match words[..] {
            ["cover", _, "yes", _] | ["too", "low", "parts"] => format!("{} free", words[0]),
            ["too", "low", word, ..] => format!("too low {word}"),
            ["refused", _] => line.to_string(),
            _ => words[0].to_string(),
        };
        *met.entry(opening).or_default() += 1;
    }
    for number in [11, 12, 13, 14, 15, 16, 53, 54, 21, 55, 22, 23, 56, 31, 32, 33, 34, 35] {
        assert!(met.contains_key(&format!("refused {number}")), "{number} of {met:?}");
    }
    for word in
        ["cover", "cover free", "too free", "too low parts", "too low stop", "too low needs"]
    {
        assert!(met.get(word).is_some_and(|&count| count > 100), "{word} of {met:?}");
    }
    assert!(met["no"] > 15 && met["yes"] > 400, "{met:?}");
}

#[test]
fn the_deepest_trees_are_asked_in_every_way() {
    let mut random = Random::new(1);
    for shape in [Shape::Path, Shape::Star, Shape::Caterpillar] {
        let due = ends(&mut random, shape, 256, 0);
        for (kind, k) in BOTH.into_iter().flat_map(|kind| [(kind, 1), (kind, 32)]) {
            let is_due = |record: &&Record| {
                let lies = |g: Graph| g.edges.iter().map(|e| (e.a, e.b)).eq(due.iter().copied());
                let asked = record.kind == kind && record.k == k && record.sheet.len() == 2_044;
                asked && read(&record.sheet).is_ok_and(lies)
            };
            let asked: Vec<&Asked> = made().iter().filter(is_due).map(|r| &r.asked).collect();
            let is_met = |is: fn(&Asked) -> bool| asked.iter().any(|&asked| is(asked));
            assert!(is_met(|asked| matches!(asked, Asked::Trial { .. })), "{shape:?} {kind:?} {k}");
            assert!(is_met(|asked| matches!(asked, Asked::Best { .. })), "{shape:?} {kind:?} {k}");
        }
    }
}

/// What is printed of replies: the case with its values, and for a cover the bytes that the rows of trees are made of.
fn printed(replies: Vec<(Answer, Vec<u8>)>) -> BTreeSet<(String, Vec<u8>)> {
    let shown = |(answer, bytes): (Answer, Vec<u8>)| match answer {
        Answer::Cover { .. } => (format!("{answer:?}"), bytes),
        _ => (format!("{answer:?}"), vec![]),
    };
    replies.into_iter().map(shown).collect()
}

#[test]
fn what_is_printed_whole_leaves_no_choice() {
    let mut random = Random::new(45);
    // Covers and "too low parts", printed whole or not; and how often "not" was right.
    let (mut fixed, mut free, mut many) = ([0; 2], [0; 2], [0; 2]);
    for _ in 0..6_000 {
        let n = random.between(2, 6);
        let k = random.between(1, n.min(3));
        let m = random.between(n - 1, 8);
        let graph = random.any_graph(n, m, 9);
        let limit = random.between(1, 14) as u64;
        let all = all_replies(&graph, k, limit);
        let which = match all[0].0 {
            Answer::Cover { .. } => 0,
            Answer::Parts { .. } => 1,
            _ => continue,
        };
        let ways = printed(all).len();
        if is_fixed(Kind::Rooted, &graph, k, limit) {
            assert_eq!(ways, 1, "k {k} limit {limit} of {graph:?}");
            fixed[which] += 1;
        } else {
            free[which] += 1;
            many[which] += usize::from(ways > 1);
        }
    }
    assert!(fixed[0] > 500 && fixed[1] > 50, "{fixed:?} {free:?} {many:?}");
    assert!(many[0] * 2 > free[0] && many[1] == free[1], "{fixed:?} {free:?} {many:?}");
}

#[test]
fn other_choices_are_printed_alike() {
    let mut differing = 0;
    for record in made() {
        let (Some(own), Some(other)) = (own_reply(record), other_reply(record)) else { continue };
        let is_whole = encode(std::slice::from_ref(record))[10] == 1;
        let counts = if is_whole { own.values.len() } else { 1 };
        if own.case == 2 && !is_whole {
            assert_eq!(other.case, 2);
        } else {
            assert_eq!((other.case, &other.values[..counts]), (own.case, &own.values[..counts]));
        }
        if is_whole && own.case == 0 {
            assert!(own.front == other.front, "{record:?}");
        }
        differing += usize::from(own != other);
    }
    assert!(differing > 60, "{differing}");
}
