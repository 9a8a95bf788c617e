//! The question of a walk: its refusals in their places, the bytes it writes, and the largest walks.

use crate::common::crossings::keeps;
use crate::common::{buffer_of, filing, sheet_n, BOTH};
use reference::best;
use reference::bytes::two;
use reference::check::check;
use reference::cover::{decode, encode, gather, Tree};
use reference::graph::{read, sheet, Graph};
use reference::made_filings::filings;
use reference::made_shapes::{any_weights, graph, POSITIVE, SHAPES};
use reference::question::Kind;
use reference::random::Random;
use reference::walk::{walk, WALK_BUFFER};
use Kind::{Rooted, Unrooted};

/// The answer, and the buffer of so many bytes after it.
fn ask(
    kind: Kind,
    sheet: &[u8],
    k: u64,
    cover: &[u8],
    tree: usize,
    room: usize,
) -> (Result<(usize, u64), u16>, Vec<u8>) {
    let mut lent = buffer_of(room);
    let answer = walk(kind, sheet, k, cover, tree, &mut lent);
    (answer, lent)
}

/// The stops that an answer of so many has written; every byte behind them is as it was.
fn written(count: usize, lent: &[u8]) -> Vec<usize> {
    assert_eq!(lent[2 * count..], buffer_of(lent.len())[2 * count..], "bytes behind the walk");
    (0..count).map(|i| two(lent, 2 * i)).collect()
}

/// Asserts that the walk of a tree has these stops and this length, and leaves the bytes behind it.
fn assert_walk(sheet: &[u8], trees: &[Tree], tree: usize, stops: &[usize], length: u64) {
    for room in [WALK_BUFFER, WALK_BUFFER + 1, 3_000] {
        let k = trees.len() as u64;
        let (answer, lent) = ask(Unrooted, sheet, k, &encode(trees), tree, room);
        assert_eq!(answer, Ok((stops.len(), length)));
        assert_eq!(written(stops.len(), &lent), stops);
    }
}

#[test]
fn walks_are_refused_in_order() {
    let good = filing(&[0, 1], &[(0, 0), (0, 1)]);
    let open = filing(&[0, 1], &[(0, 0)]);
    let apart = filing(&[0, 1], &[(0, 0), (1, 1)]);
    let fallen = filing(&[0, 1], &[(0, 1), (0, 0)]);
    let alone = filing(&[0], &[(0, 0), (0, 1)]);
    let bad = sheet(4, &[(0, 1, 1_000_001)]);
    let n = sheet_n();
    // Name, sheet, k, filed cover, tree, buffer length and the number due (0: a walk).
    type Row<'a> = (&'static str, &'a [u8], u64, &'a [u8], usize, usize, u16);
    let rows: [Row; 18] = [
        ("the first tree", &n, 2, &good, 0, 1_022, 0),
        ("tree t - 1", &n, 2, &good, 1, 1_022, 0),
        ("tree t", &n, 2, &good, 2, 1_022, 51),
        ("tree 65,536", &n, 2, &good, 65_536, 1_022, 51),
        ("the highest number", &n, 2, &good, usize::MAX, 1_022, 51),
        ("1,021 bytes", &n, 2, &good, 0, 1_021, 52),
        ("1,021 bytes, walk of one stop", &n, 2, &good, 1, 1_021, 52),
        ("10 bytes, as many as written", &n, 2, &good, 0, 10, 52),
        ("no bytes", &n, 2, &good, 0, 0, 52),
        ("a longer buffer", &n, 2, &good, 0, 2_000, 0),
        ("51 before 52", &n, 2, &good, 2, 1_021, 51),
        ("35 before 51", &n, 2, &open, 2, 1_021, 35),
        ("34 before 51", &n, 2, &apart, 2, 1_021, 34),
        ("33 before 51", &n, 2, &fallen, 2, 1_021, 33),
        ("32 before 51", &n, 2, &alone, 2, 1_021, 32),
        ("31 before 51", &n, 2, &[], 2, 1_021, 31),
        ("21 before 31", &n, 5, &[], 2, 1_021, 21),
        ("16 before 21", &bad, 5, &[], 2, 1_021, 16),
    ];
    for (name, sheet, k, cover, tree, room, number) in rows {
        let (answer, lent) = ask(Rooted, sheet, k, cover, tree, room);
        assert_eq!(answer.err().unwrap_or(0), number, "{name}");
        assert_eq!(lent == buffer_of(room), number > 0, "{name}");
    }
}

/// Sheet N: tree 0 of its cover at limit 4, and tree 1, which has no line.
#[test]
fn the_walks_of_sheet_n() {
    let cover = filing(&[0, 1], &[(0, 0), (0, 1)]);
    for kind in BOTH {
        let (answer, lent) = ask(kind, &sheet_n(), 2, &cover, 0, WALK_BUFFER);
        assert_eq!(answer, Ok((5, 12)));
        assert_eq!(lent[..10], [0, 0, 2, 0, 3, 0, 2, 0, 0, 0]);
        assert_eq!(written(5, &lent), [0, 2, 3, 2, 0]);
        let (answer, lent) = ask(kind, &sheet_n(), 2, &cover, 1, WALK_BUFFER);
        assert_eq!(answer, Ok((1, 0)));
        assert_eq!(written(1, &lent), [1]);
    }
    assert_walk(&sheet(1, &[]), &[Tree::new(0, vec![])], 0, &[0], 0);
}

/// Line v joins stops v and v + 1; from either end, and from the middle.
#[test]
fn a_path_of_256_stops() {
    let lines: Vec<_> = (1..256).map(|v| (v - 1, v, v as u64)).collect();
    let (path, length) = (sheet(256, &lines), 255 * 256);
    let there: Vec<usize> = (0..256).collect();
    let back: Vec<usize> = (0..256).rev().collect();
    let from = |start: usize| [Tree::new(start, (0..255).collect())];
    assert_walk(&path, &from(0), 0, &[&there[..], &back[1..]].concat(), length);
    assert_walk(&path, &from(255), 0, &[&back[..], &there[1..]].concat(), length);
    // The line down to stop 127 is number 127, that up to stop 129 number 128.
    let low = [&back[255 - 128..], &there[1..=128]].concat();
    let stops = [&low[..], &there[129..], &back[1..=127]].concat();
    assert_walk(&path, &from(128), 0, &stops, length);
    let heavy: Vec<_> = (1..256).map(|v| (v, v - 1, 1_000_000)).collect();
    let stops = [&there[..], &back[1..]].concat();
    assert_walk(&sheet(256, &heavy), &from(0), 0, &stops, 510_000_000);
}

/// Stop 0 is joined to stops 1 to 255 by lines 0 to 254; from there, from a leaf, and from the last leaf.
#[test]
fn a_star_of_256_stops() {
    let lines: Vec<_> = (1..256).map(|v| (v, 0, 3)).collect();
    let star = sheet(256, &lines);
    let legs = |leaves: &mut dyn Iterator<Item = usize>| -> Vec<usize> {
        leaves.flat_map(|v| [0, v]).chain([0]).collect()
    };
    let from = |start: usize| [Tree::new(start, (0..255).collect())];
    assert_walk(&star, &from(0), 0, &legs(&mut (1..256)), 1_530);
    for leaf in [1, 100, 255] {
        let others = legs(&mut (1..256).filter(|&v| v != leaf));
        let stops = [&[leaf], &others[..], &[leaf]].concat();
        assert_eq!(stops.len(), 511);
        assert_walk(&star, &from(leaf), 0, &stops, 1_530);
    }
}

/// Asserts that every tree of a good cover has a walk that keeps the rule, and that 51 and 52 come behind them.
fn assert_walks(kind: Kind, sheet: &[u8], k: u64, cover: &[u8]) {
    let graph = read(sheet).expect("a checked sheet");
    let trees = gather(&decode(cover).expect("a checked cover"));
    for (j, tree) in trees.iter().enumerate() {
        let (answer, lent) = ask(kind, sheet, k, cover, j, WALK_BUFFER + j);
        let due = (2 * tree.edges.len() + 1, 2 * graph.weight(&tree.edges));
        assert_eq!(answer, Ok(due));
        let stops = written(due.0, &lent);
        let own = |pair: &[usize]| {
            let joins = |e: &&usize| {
                let edge = graph.edges[**e];
                [edge.a, edge.b] == pair || [edge.b, edge.a] == pair
            };
            *tree.edges.iter().find(joins).expect("a line of the tree")
        };
        let crossings: Vec<usize> = stops.windows(2).map(own).collect();
        assert_eq!(stops[0], tree.start);
        assert!(keeps(&graph, tree, &crossings), "{tree:?}");
    }
    for (tree, room, number) in [(trees.len(), 1_022, 51), (trees.len() - 1, 1_021, 52)] {
        let refused = (Err(number), buffer_of(room));
        assert_eq!(ask(kind, sheet, k, cover, tree, room), refused);
    }
}

#[test]
fn every_made_filing_is_walked_or_has_the_number_of_the_check() {
    let mut walked = 0;
    for filing in filings() {
        let (kind, k) = (filing.kind, filing.k as u64);
        match check(kind, &filing.sheet, k, &filing.cover) {
            Ok(_) => {
                assert_walks(kind, &filing.sheet, k, &filing.cover);
                walked += 1;
            }
            Err(number) => {
                for (tree, room) in [(0, WALK_BUFFER), (usize::MAX, 0)] {
                    let refused = (Err(number), buffer_of(room));
                    assert_eq!(ask(kind, &filing.sheet, k, &filing.cover, tree, room), refused);
                }
            }
        }
    }
    assert!(walked > 100, "{walked}");
}

#[test]
fn every_tree_of_made_covers_is_walked() {
    let mut random = Random::new(63);
    for (least, most, turns) in [(1, 12, 20), (40, 90, 2), (256, 256, 1)] {
        for shape in SHAPES.iter().cycle().take(turns * SHAPES.len()) {
            let n = random.between(least, most);
            let k = random.between(1, n.min(8));
            let weights = any_weights(&mut random, &POSITIVE);
            let graph: Graph = graph(&mut random, *shape, n, k, weights);
            for kind in BOTH {
                if let Some((_, trees)) = best::search(kind, &graph, k) {
                    assert_walks(kind, &graph.to_sheet(), k as u64, &encode(&trees));
                }
            }
        }
    }
}
