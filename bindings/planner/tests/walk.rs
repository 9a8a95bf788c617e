//! Walks by the linked library against `reference/`, an implementation that shares no code with it: every answer, both values,
//! every byte of the buffer and around it, for good covers and damaged ones, without lists.

mod common;

use common::call::{call, Asked, Question, Through};
use common::judged::judged;
use planner::{best, walk, Cover, Kind, Reply, Walk, BUFFER, WALK_BUFFER};
use reference::bytes::two;
use reference::cover::{encode, filed_length, Tree};
use reference::districts::{Asked as Recorded, Record};
use reference::graph::sheet;
use reference::made_districts::records;
use reference::made_shapes::{any_weights, graph, POSITIVE, SHAPES};
use reference::question::{Answer, Kind as Crews};
use reference::random::Random;
use reference::rivals::least_longest;

const BOTH: [Crews; 2] = [Crews::Rooted, Crews::Unrooted];

/// Asks for trees and rooms on both sides of what is refused: for the first tree, the one behind the last and the highest
/// number every room, for the others one. Notes the cases met.
fn judge_trees(random: &mut Random, question: Question, cover: &[u8], met: &mut [usize; 64]) {
    let t = filed_length(cover).map_or(0, |_| two(cover, 0)).min(33);
    for tree in (0..=t + 1).chain([usize::MAX]) {
        let rooms = [0, 1_021, 1_022, 1_023, WALK_BUFFER + random.below(2_000)];
        let some = if [0, t, usize::MAX].contains(&tree) { 0..5 } else { 2..3 };
        for &room in &rooms[some] {
            let asked = Asked::Walk { cover, tree, room };
            met[judged(random, &Question { asked, ..question }) as usize] += 1;
        }
    }
}

/// The cover of a record: that which it files, or that which the reference answers it with.
fn cover_of(record: &Record) -> Option<Vec<u8>> {
    if let Recorded::Check { cover } = &record.asked {
        return Some(cover.clone());
    }
    let mut buffer = vec![0; record.room()];
    match record.answer(&mut buffer)? {
        Answer::Cover { .. } => Some(buffer[..filed_length(&buffer)?].to_vec()),
        _ => None,
    }
}

/// The covers of made trials and best limits, and made filings with each kind of damage, of sheets too.
#[test]
fn every_tree_of_every_record_is_walked_as_by_the_reference() {
    let mut random = Random::new(13);
    let mut met = [0; 64];
    for record in
        records().iter().filter(|record| record.classes.is_none() && record.vans.is_none())
    {
        if let Some(cover) = cover_of(record) {
            judge_trees(&mut random, Question::of(record), &cover, &mut met);
        }
    }
    for case in [0, 11, 12, 13, 14, 15, 16, 21, 31, 32, 33, 34, 35, 51, 52] {
        assert!(met[case] > 1, "case {case} is not met");
    }
}

/// A path and a star of 256 vertices, in one tree with all edges, from every vertex.
#[test]
fn the_longest_walks() {
    let mut random = Random::new(14);
    let path = (1..256).map(|v| (v - 1, v, 1_000_000)).collect::<Vec<_>>();
    let star = (1..256).map(|v| (v, 0, 1_000_000)).collect::<Vec<_>>();
    for sheet in [sheet(256, &path), sheet(256, &star)] {
        for start in 0..256 {
            let cover = encode(&[Tree::new(start, (0..255).collect())]);
            let asked = Asked::Walk { cover: &cover, tree: 0, room: WALK_BUFFER + start };
            let question =
                Question { asked, kind: 1, k: 1, sheet: &sheet, classes: None, vans: None };
            assert_eq!(judged(&mut random, &question), 0);
            let got = call(14, &question, Through::Plain);
            assert_eq!(got.values.1, [511, 510_000_000]);
        }
    }
}

/// Sheet N of document 01 and its cover at limit 4: the bytes, and numbers wider than the fields of any file.
#[test]
fn the_walks_of_sheet_n() {
    let mut random = Random::new(15);
    let n = sheet(4, &[(0, 2, 3), (2, 3, 3), (1, 3, 5)]);
    let cover = encode(&[Tree::new(0, vec![0, 1]), Tree::new(1, vec![])]);
    let mut buffer = [7; WALK_BUFFER];
    let due = Walk { stops: 5, length: 12 };
    assert_eq!(walk(Kind::Rooted, 2, &n, &cover, 0, &mut buffer), Ok(due));
    assert_eq!(buffer[..10], [0, 0, 2, 0, 3, 0, 2, 0, 0, 0]);
    assert!(buffer[10..].iter().all(|&byte| byte == 7));
    assert_eq!(due.read(&buffer), Some(vec![0, 2, 3, 2, 0]));
    let due = Walk { stops: 1, length: 0 };
    assert_eq!(walk(Kind::Rooted, 2, &n, &cover, 1, &mut buffer), Ok(due));
    assert_eq!(due.read(&buffer), Some(vec![1]));
    assert_eq!(Walk { stops: u64::MAX, length: 0 }.read(&buffer), None);
    for kind in [0, 1] {
        let mut said = |k, tree, room| {
            let asked = Asked::Walk { cover: &cover, tree, room };
            judged(&mut random, &Question { asked, kind, k, sheet: &n, classes: None, vans: None })
        };
        for tree in [2, 256, 65_536, 65_537, 1 << 32, (1 << 32) + 1, usize::MAX] {
            assert_eq!((said(2, tree, 1_022), said(2, tree, 0)), (51, 51));
        }
        for k in [0, 33, 65_536 + 2, (1 << 32) + 2, usize::MAX] {
            assert_eq!(said(k, 2, 0), 21);
        }
    }
}

/// Every kind but 0 is unrooted: one tree from vertex 3 over all lines is a cover without roots, none with them.
#[test]
fn every_other_kind_is_unrooted() {
    let mut random = Random::new(16);
    let n = sheet(4, &[(0, 2, 3), (2, 3, 3), (1, 3, 5)]);
    let cover = encode(&[Tree::new(3, vec![0, 1, 2])]);
    let asked = Asked::Walk { cover: &cover, tree: 0, room: 1_022 };
    let question = Question { asked, kind: 0, k: 1, sheet: &n, classes: None, vans: None };
    assert_eq!(judged(&mut random, &question), 32);
    for kind in [1, 2, 3, 256, 1 << 16, u32::MAX] {
        let question = Question { kind, ..question };
        assert_eq!(judged(&mut random, &question), 0);
        let got = call(16, &question, Through::Plain);
        assert_eq!((got.case, &got.values.1[..]), (0, &[7, 22][..]), "kind {kind}");
        assert_eq!(got.buffer.1[..14], [3, 0, 2, 0, 0, 0, 2, 0, 3, 0, 1, 0, 3, 0]);
    }
}

/// The longest walk of the best limit's trees, each asked with its cover, or nothing where there is no cover.
fn longest(kind: Kind, k: usize, sheet: &[u8]) -> Option<u64> {
    let mut buffer = vec![0; BUFFER];
    let Reply::Cover { trees, .. } = best(kind, k, sheet, &mut buffer) else { return None };
    let cover = buffer[..Cover::length(&buffer)?].to_vec();
    let length = |tree| walk(kind, k, sheet, &cover, tree, &mut buffer).expect("a walk").length;
    (0..trees as usize).map(length).max()
}

/// At the best limit the longest walk is at most eight times the longest of anybody's closed walks.
#[test]
fn the_longest_walk_is_within_eight_times() {
    let mut random = Random::new(17);
    for shape in SHAPES.iter().cycle().take(100 * SHAPES.len()) {
        let n = random.between(2, 6);
        let most = random.between(1, n.min(4));
        let weights = any_weights(&mut random, &POSITIVE);
        let graph = graph(&mut random, *shape, n, most, weights);
        for k in 1..=most {
            for (crews, kind) in [(BOTH[0], Kind::Rooted), (BOTH[1], Kind::Unrooted)] {
                let ours = longest(kind, k, &graph.to_sheet());
                let least = least_longest(crews, &graph, k);
                assert_eq!(ours.is_some(), least.is_some(), "{crews:?} k {k} {graph:?}");
                if let (Some(ours), Some(least)) = (ours, least) {
                    assert!(least <= ours && ours <= 8 * least, "{crews:?} k {k} {graph:?}");
                }
            }
        }
    }
}
