//! The walks of the quick version, and of the linked library where it is linked, against `reference/`: the same number and
//! values, and every byte.

use bench::made::{sheet, SHAPES, SIZES};
use bench::planners::{linked, Planner};
use bench::question::Question;
use bench::walk::WALK_BUFFER;
use reference::best::best;
use reference::brought::Brought;
use reference::cover::{encode, filed_length, Tree};
use reference::districts::Asked;
use reference::made_filings::{filings, Filing};
use reference::made_surfaces::surfaced;
use reference::question::{Kind, BUFFER};
use reference::walk::walk_with;

/// What stands in the values and the buffer before a question.
const VALUE: u64 = 0x1111_2222_3333_4444;
const FILL: u8 = 0xa5;

/// A cover filed with what is brought.
#[derive(Clone, Copy)]
struct Filed<'a> {
    kind: Kind,
    k: usize,
    brought: Brought<'a>,
    cover: &'a [u8],
}

/// Asks every planner for a tree of a filed cover, with so many bytes of room, and gives the number due.
fn asked_with(filed: Filed, tree: usize, room: usize) -> u16 {
    let Filed { kind, k, brought, cover } = filed;
    let mut right = vec![FILL; room];
    let said = walk_with(kind, brought, k as u64, cover, tree, &mut right);
    let (number, due) = match said {
        Ok((stops, length)) => (0, [stops as u64, length]),
        Err(number) => (number, [VALUE; 2]),
    };
    for planner in linked().into_iter().chain([Planner::Plain]) {
        let (mut values, mut buffer) = ([VALUE; 2], vec![FILL; room]);
        let Brought { sheet, classes, vans } = brought;
        let question = Question { kind: kind as u32, k, sheet, classes, vans };
        let case = planner.walk(question, cover, tree, &mut values, &mut buffer);
        assert_eq!((case, values), (number.into(), due), "{kind:?} k {k} tree {tree} room {room}");
        assert!(buffer == right, "{kind:?} k {k} tree {tree} room {room}");
    }
    number
}

/// The same without lists.
fn asked(filing: &Filing, tree: usize, room: usize) -> u16 {
    let Filing { kind, k, ref sheet, ref cover } = *filing;
    asked_with(Filed { kind, k, brought: Brought::plain(sheet), cover }, tree, room)
}

/// Asks for every tree with enough room, and for trees and rooms that are refused; gives the number due of the first tree.
fn every_tree(filing: &Filing) -> u16 {
    let t = filing.cover.first().map_or(0, |&low| usize::from(low.min(33)));
    for tree in (0..=t).chain([usize::MAX]) {
        asked(filing, tree, WALK_BUFFER + tree % 3);
    }
    for room in [0, WALK_BUFFER - 1, 2 * WALK_BUFFER] {
        asked(filing, 0, room);
        asked(filing, t, room);
    }
    asked(filing, 0, WALK_BUFFER)
}

#[test]
fn made_filings() {
    let mut met = [0; 64];
    for filing in filings() {
        met[usize::from(every_tree(&filing))] += 1;
    }
    for case in [0, 11, 12, 13, 14, 15, 16, 21, 31, 32, 33, 34, 35] {
        assert!(met[case] > 0, "case {case} is not met");
    }
}

/// Made filings with lists of classes, right and wrong ones: the first tree, and one that no cover here has.
#[test]
fn made_filings_with_lists() {
    let mut met = [0; 64];
    for record in surfaced() {
        let Asked::Check { cover } = &record.asked else { continue };
        let filed = Filed { kind: record.kind, k: record.k, brought: record.brought(), cover };
        for (tree, room) in [(0, WALK_BUFFER), (0, WALK_BUFFER - 1), (33, WALK_BUFFER)] {
            met[usize::from(asked_with(filed, tree, room))] += 1;
        }
    }
    for case in [0, 11, 12, 13, 14, 15, 16, 53, 54, 21, 31, 32, 33, 34, 35, 51, 52] {
        assert!(met[case] > 0, "case {case} is not met");
    }
}

/// Numbers 51 and 52, each at its edge and in their order, on sheet N of document 01.
#[test]
fn refused_walks() {
    let sheet = reference::graph::sheet(4, &[(0, 2, 3), (2, 3, 3), (1, 3, 5)]);
    let cover = encode(&[Tree::new(0, vec![0, 1]), Tree::new(1, vec![])]);
    for kind in [Kind::Rooted, Kind::Unrooted] {
        let filing = Filing { kind, k: 2, sheet: sheet.clone(), cover: cover.clone() };
        for (tree, room, number) in [(1, 1_022, 0), (2, 1_022, 51), (1, 1_021, 52), (2, 0, 51)] {
            assert_eq!(asked(&filing, tree, room), number);
        }
    }
}

/// A path and a star of 256 vertices, from every vertex.
#[test]
fn the_longest_walks() {
    let path: Vec<_> = (1..256).map(|v| (v - 1, v, v as u64)).collect();
    let star: Vec<_> = (1..256).map(|v| (v, 0, v as u64)).collect();
    for sheet in [path, star].map(|edges| reference::graph::sheet(256, &edges)) {
        for start in 0..256 {
            let cover = encode(&[Tree::new(start, (0..255).collect())]);
            let filing = Filing { kind: Kind::Unrooted, k: 1, sheet: sheet.clone(), cover };
            assert_eq!(asked(&filing, 0, WALK_BUFFER), 0);
        }
    }
}

/// The graphs that are measured, at their smaller sizes: every tree of the best limit's cover.
#[test]
fn measured_graphs() {
    for (shape, size) in SHAPES.iter().flat_map(|shape| SIZES[1..].iter().map(move |s| (shape, s)))
    {
        let sheet = sheet(*shape, size);
        for kind in [Kind::Rooted, Kind::Unrooted] {
            let mut buffer = vec![0; BUFFER];
            best(kind, &sheet, size.k as u64, &mut buffer);
            let cover = buffer[..filed_length(&buffer).expect("four bytes")].to_vec();
            let filing = Filing { kind, k: size.k, sheet: sheet.clone(), cover };
            assert_eq!(every_tree(&filing), 0, "{shape:?} {size:?}");
        }
    }
}
