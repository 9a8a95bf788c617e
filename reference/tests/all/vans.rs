//! Lists of vans: rows worked out by hand, 55 in its place among all other numbers, and no list as good as 0 to k - 1.

use crate::common::asking::Asked;
use crate::common::vans::list;
use crate::common::{filing, sheet_n, BOTH, N};
use reference::brought::Brought;
use reference::cover::filed_length;
use reference::districts::{text, Asked as Put, Record};
use reference::graph::sheet;
use reference::question::{Kind, BUFFER, LIMIT};
use reference::random::Random;
use reference::walk::walk_with;

/// Vertices, edges (end, end, weight), vans, limit or none for the best, and the text due.
type Row = (usize, &'static [(usize, usize, u64)], &'static [usize], Option<u64>, &'static str);

/// One edge of weight 5.
const EDGE: &[(usize, usize, u64)] = &[(0, 1, 5)];

/// Vertex 0 in the middle of three edges of weight 5.
const STAR: &[(usize, usize, u64)] = &[(0, 1, 5), (0, 2, 5), (0, 3, 5)];

/// A path of two edges.
const PATH: &[(usize, usize, u64)] = &[(0, 1, 2), (1, 2, 2)];

const ROWS: [Row; 30] = [
    // Two vans at one end: the edge is left at limit 6 and the first van's, and a part at limit 5, either van's.
    (2, EDGE, &[0, 0], Some(4), "too low stop 1\n"),
    (2, EDGE, &[0, 0], Some(5), "cover 5 yes 2\n"),
    (2, EDGE, &[0, 0], Some(6), "cover 6 5 2\ntree 0 5 0\ntree 0 0\n"),
    (2, EDGE, &[0, 0], None, "cover 5 yes 2\n"),
    (2, EDGE, &[1, 1], Some(4), "too low stop 0\n"),
    (2, EDGE, &[1, 1, 1], Some(6), "cover 6 5 3\ntree 1 5 0\ntree 1 0\ntree 1 0\n"),
    (2, EDGE, &[1, 0], Some(0), "cover 0 0 2\ntree 1 0\ntree 0 0\n"),
    (2, EDGE, &[1, 0, 1], None, "cover 0 0 3\ntree 1 0\ntree 0 0\ntree 1 0\n"),
    // Three parts at the middle: one van for each, or two vans, which D counts, or one.
    (4, STAR, &[0, 0, 0], Some(5), "cover 5 yes 3\n"),
    (4, STAR, &[0, 0], Some(5), "too low parts 3 yards 2\n"),
    (4, STAR, &[0], Some(5), "too low parts\n"),
    // Of the two that are left to the vans 0 a bunch reaches 5 only at the second: parts of lines 0 and 1, line 2 left.
    (4, STAR, &[0, 0], Some(6), "cover 6 yes 2\n"),
    (4, STAR, &[0, 0], None, "cover 6 yes 2\n"),
    // Vans at the ends: vertex 0 is joined to that of the first edge.
    (4, STAR, &[3, 2, 1, 1], Some(6), "cover 6 5 4\ntree 3 0\ntree 2 0\ntree 1 5 0\ntree 1 0\n"),
    (4, STAR, &[3, 1, 2, 1], Some(6), "cover 6 5 4\ntree 3 0\ntree 1 5 0\ntree 2 0\ntree 1 0\n"),
    // A yard at the far end.
    (3, PATH, &[2], Some(1), "too low stop 0\n"),
    (3, PATH, &[2], Some(2), "too low parts 2 yards 1\n"),
    (3, PATH, &[2], Some(4), "cover 4 4 1\ntree 2 4 0 1\n"),
    (3, PATH, &[2, 2], Some(2), "cover 2 yes 2\n"),
    (3, PATH, &[2, 2], Some(3), "cover 3 yes 2\n"),
    (3, PATH, &[2, 2], Some(5), "cover 5 4 2\ntree 2 4 0 1\ntree 2 0\n"),
    (3, PATH, &[1, 1], Some(3), "cover 3 yes 2\n"),
    (3, PATH, &[1, 1], Some(5), "cover 5 4 2\ntree 1 4 0 1\ntree 1 0\n"),
    // Vertices 2 and 3 hold no van.
    (4, N, &[3, 0], Some(4), "too low stop 1\n"),
    (4, N, &[3, 0], Some(5), "cover 5 5 2\ntree 3 5 2\ntree 0 3 0\n"),
    (4, N, &[0, 3], Some(6), "cover 6 5 2\ntree 0 3 0\ntree 3 5 2\n"),
    (4, N, &[0, 1], Some(4), "cover 4 6 2\ntree 0 6 0 1\ntree 1 0\n"),
    // No edges.
    (1, &[], &[0, 0, 0], None, "cover 0 0 3\ntree 0 0\ntree 0 0\ntree 0 0\n"),
    (2, &[], &[0, 0, 0], None, "no cover\n"),
    (2, &[], &[1, 1], Some(9), "too low stop 0\n"),
];

#[test]
fn rows_worked_out_by_hand() {
    for (n, edges, vans, limit, due) in ROWS {
        let asked = match limit {
            Some(limit) => Put::Trial { limit, room: BUFFER },
            None => Put::Best { room: BUFFER },
        };
        let record = Record::plain(asked, Kind::Rooted, vans.len(), &sheet(n, edges));
        assert_eq!(text(&[record.with_vans(&list(vans))]), due, "{vans:?} {limit:?} on {edges:?}");
    }
}

/// What the check says of filed starts and entries by each list.
#[test]
fn starts_are_compared_with_the_list() {
    // Vans, starts, entries (tree, edge), and the heaviest weight or the number due on sheet N.
    type Row = (&'static [usize], &'static [usize], &'static [(usize, usize)], Result<u64, u16>);
    let all = &[(0, 0), (0, 1), (0, 2)];
    let rows: [Row; 14] = [
        (&[0, 1], &[0, 1], &[(0, 0), (0, 1)], Ok(6)),
        (&[0, 0], &[0, 0], &[(0, 0), (0, 1), (1, 0), (1, 1), (1, 2)], Ok(11)),
        (&[0, 0], &[0, 1], all, Err(32)),
        (&[0, 1], &[0, 0], all, Err(32)),
        (&[2, 3], &[2, 3], &[(0, 0), (1, 2)], Ok(5)),
        (&[2, 3], &[3, 2], &[(0, 2), (1, 0)], Err(32)),
        (&[3, 2], &[3, 2], &[(0, 2), (1, 0)], Ok(5)),
        (&[3, 2], &[0, 1], &[(0, 0), (0, 1)], Err(32)),
        (&[3, 2], &[3], all, Err(32)),
        (&[3, 2], &[3, 2, 3], all, Err(32)),
        (&[3, 3, 3, 3, 3], &[3, 3, 3, 3, 3], all, Ok(11)),
        (&[3, 3], &[3, 4], all, Err(32)),
        (&[3, 3], &[3, 3], &[(1, 0)], Err(34)),
        (&[3, 3], &[3, 3], &[(0, 2), (1, 1)], Err(35)),
    ];
    for (vans, starts, entries, due) in rows {
        let (sheet, vans) = (sheet_n(), list(vans));
        let brought = Brought { vans: Some(&vans), ..Brought::plain(&sheet) };
        let cover = filing(starts, entries);
        let asked = Asked {
            brought,
            k: vans.len() as u64 / 2,
            limit: 9,
            room: BUFFER,
            cover: &cover,
            tree: 0,
        };
        assert_eq!(asked.said(Kind::Rooted)[2].0, format!("{due:?}"), "{vans:?} {starts:?}");
    }
}

#[test]
fn walks_begin_at_the_vans() {
    let (sheet, vans) = (sheet_n(), list(&[3, 3, 0]));
    let brought = Brought { vans: Some(&vans), ..Brought::plain(&sheet) };
    let cover = filing(&[3, 3, 0], &[(0, 2), (1, 1), (2, 0)]);
    for (tree, stops, length) in [(0, [3, 1, 3], 10), (1, [3, 2, 3], 6), (2, [0, 2, 0], 6)] {
        let mut lent = vec![0; 1_022];
        let said = walk_with(Kind::Rooted, brought, 3, &cover, tree, &mut lent);
        assert_eq!(said, Ok((3, length)));
        assert_eq!(lent[..6], list(&stops));
    }
}

/// Lists for 2 vans on sheet N by their bytes, the first one right.
const LISTS: [&[u8]; 12] = [
    &[3, 0, 3, 0],
    &[],
    &[3],
    &[3, 0],
    &[3, 0, 3],
    &[3, 0, 3, 0, 3],
    &[3, 0, 3, 0, 3, 0],
    &[4, 0, 3, 0],
    &[3, 0, 4, 0],
    &[3, 0, 255, 255],
    &[0, 3, 3, 0],
    &[0, 1, 0, 0],
];

/// All numbers of limit, buffer, cover and walk come behind 55.
#[test]
fn lists_are_refused_in_their_place() {
    let good = || filing(&[3, 3], &[(0, 0), (0, 1), (1, 2)]);
    // The second column is of limit, buffer length, filed cover and tree; the last of the numbers with a right list.
    type Row = (&'static str, (u64, usize, Vec<u8>, usize), [u16; 4]);
    let rows: [Row; 11] = [
        ("nothing else", (9, BUFFER, good(), 1), [0, 0, 0, 0]),
        ("limit", (LIMIT + 1, BUFFER, good(), 0), [22, 0, 0, 0]),
        ("limit and buffer", (LIMIT + 1, 1_022, good(), 0), [22, 23, 0, 0]),
        ("buffer", (9, BUFFER - 1, good(), 0), [23, 23, 0, 0]),
        ("no buffer", (9, 0, good(), 1), [23, 23, 0, 52]),
        ("tree", (9, BUFFER, good(), 2), [0, 0, 0, 51]),
        ("cover's length", (9, BUFFER, vec![], 0), [0, 0, 31, 31]),
        ("starts", (9, BUFFER, filing(&[0, 1], &[]), 0), [0, 0, 32, 32]),
        ("entries", (9, BUFFER, filing(&[3, 3], &[(0, 3)]), 0), [0, 0, 33, 33]),
        ("not joined", (9, BUFFER, filing(&[3, 3], &[(0, 0)]), 0), [0, 0, 34, 34]),
        ("uncovered", (9, BUFFER, filing(&[3, 3], &[]), 0), [0, 0, 35, 35]),
    ];
    let sheet = sheet_n();
    for (place, vans) in LISTS.into_iter().enumerate() {
        let brought = Brought { vans: Some(vans), ..Brought::plain(&sheet) };
        for (name, (limit, room, cover, tree), numbers) in &rows {
            let asked = Asked { brought, k: 2, limit: *limit, room: *room, cover, tree: *tree };
            let due = if place == 0 { *numbers } else { [55; 4] };
            assert_eq!(asked.numbers(Kind::Rooted), due, "{name}, {vans:?}");
        }
    }
}

/// 21 and 53 come before 55, with right lists and wrong ones.
#[test]
fn counts_and_classes_come_before_lists() {
    let sheet = sheet_n();
    for vans in LISTS {
        let brought = Brought { vans: Some(vans), ..Brought::plain(&sheet) };
        for k in [0, 33, 65_535, u64::MAX] {
            let asked = Asked { brought, k, limit: LIMIT + 1, room: 0, cover: &[], tree: 9 };
            BOTH.iter().for_each(|&kind| assert_eq!(asked.numbers(kind), [21; 4], "{k} {vans:?}"));
        }
        for classes in [&[0, 0][..], &[0; 4]] {
            let brought = Brought { classes: Some(classes), ..brought };
            let asked = Asked { brought, k: 33, limit: LIMIT + 1, room: 0, cover: &[], tree: 9 };
            BOTH.iter().for_each(|&kind| assert_eq!(asked.numbers(kind), [53; 4], "{vans:?}"));
        }
    }
}

/// 11 to 16 and 54 come before 55 too, and so does 21.
#[test]
fn sheets_and_weights_come_before_lists() {
    let sheets = [
        (vec![4, 0, 0], 11),
        (sheet(0, &[]), 12),
        (sheet(2, &vec![(0, 1, 1); 2_049]), 13),
        (sheet(4, &[(0, 4, 1)]), 14),
        (sheet(4, &[(1, 1, 1)]), 15),
        (sheet(4, &[(0, 1, 1_000_001)]), 16),
        (sheet(4, &[(0, 1, 500_001)]), 54),
    ];
    for (sheet, number) in &sheets {
        for (vans, k) in [(vec![], 1), (list(&[4]), 1), (list(&[0]), 2), (list(&[9; 33]), 33)] {
            let brought = Brought { sheet, classes: Some(&[40]), vans: Some(&vans) };
            let asked = Asked { brought, k, limit: LIMIT + 1, room: 0, cover: &[], tree: 9 };
            BOTH.iter().for_each(|&kind| {
                assert_eq!(asked.numbers(kind), [*number; 4], "{number}, {vans:?}")
            });
        }
    }
}

/// With a list more vans than vertices are no reason to refuse; without one they still are.
#[test]
fn the_clause_about_n_ends_with_a_list() {
    for n in 1..=4 {
        let sheet = sheet(n, &(1..n).map(|v| (v - 1, v, 1)).collect::<Vec<_>>());
        for k in 1..=34 {
            let vans = vec![n - 1; k];
            let entries: Vec<(usize, usize)> = (1..n).map(|v| (0, v - 1)).collect();
            let (of_list, of_none) = (filing(&vans, &entries), filing(&k_starts(k), &entries));
            let put = |vans: Option<&[u8]>, cover: &[u8]| {
                let brought = Brought { vans, ..Brought::plain(&sheet) };
                let asked = Asked { brought, k: k as u64, limit: 9, room: BUFFER, cover, tree: 0 };
                asked.numbers(Kind::Rooted)
            };
            assert_eq!(put(Some(&list(&vans)), &of_list), [if k > 32 { 21 } else { 0 }; 4]);
            assert_eq!(put(None, &of_none), [if k > n { 21 } else { 0 }; 4], "k {k} n {n}");
            // A wrong list is a list as well.
            let due = if k > 32 { 21 } else { 55 };
            assert_eq!(put(Some(&list(&vans[1..])), &of_list), [due; 4], "k {k} n {n}");
            assert_eq!(put(Some(&list(&vec![n; k])), &of_list), [due; 4], "k {k} n {n}");
        }
    }
}

/// The starts 0 to k - 1.
fn k_starts(k: usize) -> Vec<usize> {
    (0..k).collect()
}

/// A random sheet with a list of classes or none, k, a limit, a cover and a tree of it.
fn random_question(random: &mut Random) -> (Vec<u8>, Option<Vec<u8>>, usize, u64) {
    let (n, m) = (random.between(1, 8), random.between(0, 13));
    let most = [3, 9, 400_000][random.below(3)];
    let graph = random.any_graph(n, m, most);
    let k = random.between(1, n.min(5));
    let class = |_| random.below(75) as u8;
    let classes: Vec<u8> = graph.edges.iter().map(class).collect();
    let limit = random.below(2 * graph.total() as usize + 1) as u64 / k as u64;
    (graph.to_sheet(), (random.below(2) == 0).then_some(classes), k, limit)
}

/// The list of 0 to k - 1 changes nothing, not a byte; nor does any list beside an unrooted question.
#[test]
fn a_list_of_0_to_k_less_1_is_as_good_as_none() {
    let mut random = Random::new(111);
    for turn in 0..3_000 {
        let (sheet, classes, k, limit) = random_question(&mut random);
        let plain = Brought { classes: classes.as_deref(), ..Brought::plain(&sheet) };
        let kind = BOTH[turn % 2];
        let mut cover = vec![0; BUFFER];
        reference::best::best_with(kind, plain, k as u64, &mut cover);
        cover.truncate(filed_length(&cover).expect("four bytes"));
        let tree = random.below(k);
        let said = |brought: Brought| {
            Asked { brought, k: k as u64, limit, room: BUFFER, cover: &cover, tree }.said(kind)
        };
        let same = list(&k_starts(k));
        assert!(said(Brought { vans: Some(&same), ..plain }) == said(plain), "k {k} {sheet:?}");
        if kind == Kind::Unrooted {
            for vans in [vec![], vec![0], list(&[65_535]), list(&vec![0; k])] {
                assert!(said(Brought { vans: Some(&vans), ..plain }) == said(plain), "{vans:?}");
            }
        }
    }
}
