//! The linked library against `reference/`, an implementation that shares no code with it, on some thousand made questions
//! without lists, damaged ones included: every answer, every value, every byte of the buffer and around it.

mod common;

use common::call::{call, Asked, Question, Through};
use common::judged::judged;
use planner::{best, check, trial, Kind, Reply, BUFFER};
use reference::graph::sheet;
use reference::made_districts::records;
use reference::made_filings::along_a_path;
use reference::random::Random;

/// The same question with a buffer that is longer than the least length every fourth time; other lengths stay as they are.
fn with_more_room<'a>(random: &mut Random, asked: Asked<'a>) -> Asked<'a> {
    let more = if random.below(4) == 0 { random.below(90) } else { 0 };
    match asked {
        Asked::Trial { limit, room: BUFFER } => Asked::Trial { limit, room: BUFFER + more },
        Asked::Best { room: BUFFER } => Asked::Best { room: BUFFER + more },
        Asked::Within { trials, room: BUFFER } => Asked::Within { trials, room: BUFFER + more },
        other => other,
    }
}

/// The list of small districts, made trials and best limits, and made filings.
#[test]
fn every_record_is_answered_as_the_reference_allows() {
    let mut random = Random::new(3);
    let mut met = [0; 64];
    for record in
        records().iter().filter(|record| record.classes.is_none() && record.vans.is_none())
    {
        let question = Question::of(record);
        let asked = with_more_room(&mut random, question.asked);
        met[judged(&mut random, &Question { asked, ..question }) as usize] += 1;
    }
    for case in [0, 1, 2, 3, 4, 5, 11, 12, 13, 14, 15, 16, 21, 22, 23, 56, 31, 32, 33, 34, 35] {
        assert!(met[case] > 0, "case {case} is not met");
    }
}

/// Numbers wider than the fields of any file, for both kinds and every function.
#[test]
fn numbers_past_every_range_are_refused() {
    let mut random = Random::new(6);
    let n = sheet(4, &[(0, 2, 3), (2, 3, 3), (1, 3, 5)]);
    for kind in [0, 1] {
        let mut said = |k, asked| {
            judged(&mut random, &Question { asked, kind, k, sheet: &n, classes: None, vans: None })
        };
        for k in [0, 33, 65_536 + 2, (1 << 32) + 2, usize::MAX] {
            assert_eq!(said(k, Asked::Trial { limit: 4, room: BUFFER }), 21);
            assert_eq!(said(k, Asked::Best { room: BUFFER }), 21);
            assert_eq!(said(k, Asked::Within { trials: 34, room: BUFFER }), 21);
            assert_eq!(said(k, Asked::Check { cover: &[] }), 21);
            assert_eq!(said(k, Asked::Walk { cover: &[], tree: 0, room: 0 }), 21);
        }
        for limit in [2_048_000_001, 1 << 32, (1 << 32) + 4, u64::MAX] {
            assert_eq!(said(2, Asked::Trial { limit, room: BUFFER }), 22);
        }
        for room in [0, 1, 100, BUFFER - 1] {
            assert_eq!(said(2, Asked::Trial { limit: 4, room }), 23);
            assert_eq!(said(2, Asked::Best { room }), 23);
            assert_eq!(said(2, Asked::Within { trials: 34, room }), 23);
        }
    }
}

/// Every kind but 0 is unrooted.
#[test]
fn every_other_kind_is_unrooted() {
    let mut random = Random::new(7);
    let n = sheet(4, &[(0, 2, 3), (2, 3, 3), (1, 3, 5)]);
    // One tree from vertex 3 over all lines: a cover without roots, none with them.
    let cover = [1, 0, 3, 0, 3, 0, 0, 0, 0, 0, 0, 0, 0, 0, 1, 0, 2, 0];
    for kind in [1, 2, 3, 256, 1 << 16, u32::MAX] {
        let mut said = |k, asked| {
            let question = Question { asked, kind, k, sheet: &n, classes: None, vans: None };
            judged(&mut random, &question);
            let got = call(7, &question, Through::Plain);
            (got.case, got.values.1)
        };
        for (limit, case, value) in [(3, 3, 3), (0, 3, 4), (6, 0, 6)] {
            let (number, values) = said(2, Asked::Trial { limit, room: BUFFER });
            assert_eq!((number, values[0]), (case, value), "kind {kind} limit {limit}");
        }
        assert_eq!(said(1, Asked::Best { room: BUFFER }), (0, vec![6, 11, 1]), "kind {kind}");
        let within = Asked::Within { trials: 5, room: BUFFER };
        assert_eq!(said(1, within), (0, vec![6, 11, 1, 5, 6, 0]), "kind {kind}");
        let (number, values) = said(1, Asked::Check { cover: &cover });
        assert_eq!((number, values[0]), (0, 11), "kind {kind}");
    }
    let asked = Asked::Check { cover: &cover };
    let rooted = Question { asked, kind: 0, k: 1, sheet: &n, classes: None, vans: None };
    assert_eq!(judged(&mut random, &rooted), 32);
}

/// Document 02, A.2: yes exactly when each of the n vertices is covered, for n from 1 to 256, the one left out at every place.
#[test]
fn a_vertex_left_out_is_found_at_every_place() {
    let mut random = Random::new(8);
    for n in 1..=256 {
        let mut said = |left_out| {
            let filing = along_a_path(n, left_out);
            let (asked, sheet) = (Asked::Check { cover: &filing.cover }, &filing.sheet[..]);
            let kind = filing.kind as u32;
            judged(
                &mut random,
                &Question { asked, kind, k: filing.k, sheet, classes: None, vans: None },
            )
        };
        assert_eq!(said(None), 0, "n {n}");
        // The one vertex of n 1 is the start of every tree.
        for v in if n == 1 { 0..0 } else { 0..n } {
            assert_eq!(said(Some(v)), 35, "n {n} without {v}");
        }
    }
}

/// Sheet N of document 01, k 2, limit 4: the bytes that are written.
#[test]
fn the_bytes_of_sheet_n() {
    let n = sheet(4, &[(0, 2, 3), (2, 3, 3), (1, 3, 5)]);
    let mut buffer = vec![7; BUFFER];
    let due = Reply::Cover { limit: 4, heaviest: 6, trees: 2 };
    assert_eq!(trial(Kind::Rooted, 2, 4, &n, &mut buffer), due);
    let cover = [2, 0, 2, 0, 0, 0, 1, 0, 0, 0, 0, 0, 0, 0, 1, 0];
    assert_eq!(buffer[..16], cover);
    assert!(buffer[16..].iter().all(|&byte| byte == 7));
    assert_eq!(check(Kind::Rooted, 2, &n, &cover), Ok(6));
    assert_eq!(best(Kind::Rooted, 2, &n, &mut buffer), due);
}
