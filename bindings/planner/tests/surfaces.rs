//! Questions with a list of classes (document 02, A.3), put to the general functions of the linked library: replies held to
//! `reference/`, which shares no code with it, and to numbers worked out here.

mod common;
#[path = "common/sheets.rs"]
mod sheets;

use std::ops::RangeInclusive;

use common::call::{call, Asked, Question, Through, VANS};
use common::judged::judged;
use planner::{check, Kind, BUFFER, WALK_BUFFER};
use reference::bytes::two;
use reference::cover::{encode, filed_length, Tree};
use reference::graph::{sheet, Edge, Graph};
use reference::made_surfaces::surfaced;
use reference::random::Random;
use sheets::{all_of, sheet_n, written};

/// The classes of each percentage.
const PERCENT: [(RangeInclusive<u8>, u64); 5] =
    [(0..=9, 100), (10..=19, 120), (20..=39, 150), (40..=59, 200), (60..=255, 100)];

/// The weight used: weight times percent over 100, and one more where something is left.
fn used(weight: u64, class: u8) -> u64 {
    let of_class = PERCENT.iter().find(|(classes, _)| classes.contains(&class));
    let (_, percent) = of_class.expect("every class has a percentage");
    weight * percent / 100 + u64::from(weight * percent % 100 > 0)
}

/// The bytes of two trees, the second from vertex 1.
fn two_trees(start: usize, first: &[usize], second: &[usize]) -> Vec<u8> {
    let tree = |start, edges: &[usize]| Tree { start, edges: edges.to_vec() };
    encode(&[tree(start, first), tree(1, second)])
}

/// The cover of one tree from vertex 0 with one edge.
fn along(edge: usize) -> Vec<u8> {
    encode(&[Tree::new(0, vec![edge])])
}

/// Trials, best limits and checks, and walks of what is filed: right lists and wrong ones.
#[test]
fn every_record_with_a_list_is_answered_as_the_reference_allows() {
    let mut random = Random::new(21);
    let mut met = [[0; 64]; 3];
    for record in surfaced() {
        let question = Question::of(&record);
        let case = judged(&mut random, &question) as usize;
        let Asked::Check { cover } = question.asked else {
            met[0][case] += 1;
            continue;
        };
        met[1][case] += 1;
        let t = filed_length(cover).map_or(0, |_| two(cover, 0)).min(33);
        for (tree, room) in [(0, WALK_BUFFER), (t / 2, WALK_BUFFER + 7), (0, 1_021), (t, 0)] {
            let asked = Asked::Walk { cover, tree, room };
            met[2][judged(&mut random, &Question { asked, ..question }) as usize] += 1;
        }
    }
    let of_all = [0, 11, 12, 13, 14, 15, 16, 53, 54, 21];
    let others = [&[1, 2, 3, 4, 22, 23][..], &[31, 32, 33, 34, 35], &[31, 32, 33, 34, 35, 51, 52]];
    for (met, others) in met.iter().zip(others) {
        for case in of_all.iter().chain(others) {
            assert!(met[*case] > 0, "case {case} is not met");
        }
    }
}

/// One edge of each class: the values of every function are of the weight used.
#[test]
fn the_weight_used_of_every_class() {
    let cover = along(0);
    for (kind, class) in (0..=255).flat_map(|class| [(0, class), (1, class)]) {
        for weight in [1, 2, 3, 4, 5, 99, 100, 101, 333_333, 500_000] {
            let (sheet, classes, used) =
                (&sheet(2, &[(0, 1, weight)]), &[class], used(weight, class));
            for asked in all_of(used, &cover) {
                let question =
                    Question { asked, kind, k: 1, sheet, classes: Some(classes), vans: None };
                let got = call(weight, &question, question.general());
                let (place, value) = match asked {
                    Asked::Trial { .. } | Asked::Best { .. } | Asked::Within { .. } => (1, used),
                    Asked::Check { .. } => (0, used),
                    Asked::Walk { .. } => (1, 2 * used),
                };
                assert_eq!((got.case, got.values.1[place]), (0, value), "{question:?}");
            }
        }
    }
}

/// The highest weight of each percentage, and its weight used: 120 percent of 833,333 are 999,999.6.
const HIGHEST: [(u64, u64); 5] = [
    (1_000_000, 1_000_000),
    (833_333, 1_000_000),
    (666_666, 999_999),
    (500_000, 1_000_000),
    (1_000_000, 1_000_000),
];

/// One more is refused with 54, or with 16 where the weight is above 1,000,000 as it is given; at either end of the edges too.
#[test]
fn the_highest_weights() {
    let mut random = Random::new(22);
    for ((classes, percent), (highest, used)) in PERCENT.into_iter().zip(HIGHEST) {
        let refused = if percent == 100 { 16 } else { 54 };
        let places = [(1, 0), (3, 1), (300, 299), (2_048, 0), (2_048, 2_047)];
        for (class, (m, place)) in [*classes.start(), *classes.end()]
            .into_iter()
            .flat_map(|class| places.map(|place| (class, place)))
        {
            let cover = along(place);
            let list: Vec<u8> = (0..m).map(|e| if e == place { class } else { 0 }).collect();
            let mut said = |kind, weight, asked| {
                let edge = |e| (0, 1, if e == place { weight } else { 1_000_000 });
                let sheet = &sheet(2, &(0..m).map(edge).collect::<Vec<_>>());
                let question =
                    Question { asked, kind, k: 1, sheet, classes: Some(&list), vans: None };
                let got = call(22, &question, question.general());
                assert_eq!(judged(&mut random, &question), got.case);
                (got.case, got.values.1[0])
            };
            for kind in [0, 1] {
                for asked in all_of(used, &cover) {
                    assert_eq!(said(kind, highest, asked).0, 0, "class {class}");
                    assert_eq!(said(kind, highest + 1, asked).0, refused, "class {class}");
                }
                let check = Asked::Check { cover: &cover };
                assert_eq!(said(kind, highest, check), (0, used), "class {class}");
            }
        }
    }
}

/// 53 exactly where there are not m class bytes, at lengths too whose lowest byte, or two, are those of m; no list is not one of
/// no bytes.
#[test]
fn lists_of_other_lengths() {
    let mut random = Random::new(23);
    let cover = two_trees(0, &[], &[]);
    for m in [0, 1, 3] {
        let sheet = sheet(2, &[(0, 1, 3), (1, 0, 3), (0, 1, 5)][..m]);
        for (kind, asked) in [0, 1].iter().flat_map(|&kind| all_of(0, &cover).map(|a| (kind, a))) {
            let mut said = |classes: Option<&[u8]>| {
                judged(
                    &mut random,
                    &Question { asked, kind, k: 2, sheet: &sheet, classes, vans: None },
                )
            };
            assert_eq!(said(None), 0, "m {m}");
            for length in (0..12).chain([255, 256, 256 + m, 2_048, 65_536 + m]) {
                let due = if length == m { 0 } else { 53 };
                assert_eq!(said(Some(&vec![10; length])), due, "m {m} length {length}");
            }
        }
    }
}

/// Covers of sheet N for two crews, each with a fault and its number.
fn wrong_covers() -> [(Vec<u8>, u32); 5] {
    [
        (vec![], 31),
        (two_trees(4, &[1, 0], &[]), 32),
        (two_trees(0, &[1, 0], &[]), 33),
        (two_trees(0, &[0], &[1]), 34),
        (two_trees(0, &[0], &[]), 35),
    ]
}

/// Everything wrong at once, then one fault less after the other: each number in its turn.
#[test]
fn numbers_in_their_order() {
    let mut random = Random::new(24);
    let (good, heavy, too_heavy) = ([3, 3, 5], [1_000_000, 3, 5], [1_000_000, 3, 1_000_001]);
    let before_the_cover: [([u64; 3], &[u8], u32); 4] = [
        (too_heavy, &[40; 2], 16),
        (heavy, &[40; 2], 53),
        (heavy, &[40; 3], 54),
        (good, &[40; 3], 21),
    ];
    let (covers, cover) = (wrong_covers(), &two_trees(0, &[0, 1], &[])[..]);
    for kind in [0, 1] {
        let mut put = |weights, classes, k, asked| {
            let (sheet, classes) = (&sheet_n(weights), Some(classes));
            judged(&mut random, &Question { asked, kind, k, sheet, classes, vans: None })
        };
        for (weights, classes, number) in before_the_cover {
            let mut said = |asked| put(weights, classes, 33, asked);
            assert_eq!(said(Asked::Trial { limit: u64::MAX, room: 0 }), number);
            assert_eq!(said(Asked::Best { room: 0 }), number);
            assert_eq!(said(Asked::Within { trials: 0, room: 0 }), number);
            for (cover, _) in &covers {
                assert_eq!(said(Asked::Check { cover }), number);
                assert_eq!(said(Asked::Walk { cover, tree: 2, room: 0 }), number);
            }
        }
        let mut said = |asked| put(good, &[40; 3], 2, asked);
        assert_eq!(said(Asked::Trial { limit: u64::MAX, room: 0 }), 22);
        assert_eq!(said(Asked::Trial { limit: 6, room: BUFFER - 1 }), 23);
        assert_eq!(said(Asked::Best { room: BUFFER - 1 }), 23);
        for (cover, number) in &covers {
            assert_eq!(said(Asked::Check { cover }), *number);
            assert_eq!(said(Asked::Walk { cover, tree: 2, room: 0 }), *number);
        }
        assert_eq!(said(Asked::Walk { cover, tree: 2, room: 0 }), 51);
        assert_eq!(said(Asked::Walk { cover, tree: 1, room: WALK_BUFFER - 1 }), 52);
        assert_eq!(all_of(12, cover).map(said), [0; 5]);
    }
}

/// The first bit alone says whether class bytes are brought, whatever is said of vans, here wrong ones that are not brought or
/// the roots that no list means. Lines 0 and 1 of sheet N weigh 3 each, or 6 in class 40.
#[test]
fn the_bits_of_the_lists() {
    let (sheet, cover) = (sheet_n([3, 3, 5]), two_trees(0, &[0, 1], &[]));
    let asked = Asked::Check { cover: &cover };
    let question = Question { asked, kind: 0, k: 2, sheet: &sheet, classes: None, vans: None };
    let said = |brought, classes| {
        let vans = if brought & VANS == 0 { &[255; 3][..] } else { &[0, 0, 1, 0] };
        let got = call(25, &question, Through::General { brought, classes, vans });
        (got.case, (got.case == 0).then_some(got.values.1[0]))
    };
    for brought in [0, 2, 4, 6, 252, 254, 256, 1 << 16, 1 << 31, !3, !1] {
        for classes in [&[][..], &[40; 2], &[40; 3], &[40; 4]] {
            assert_eq!(said(brought, classes), (0, Some(6)), "bits {brought}");
        }
        assert_eq!(said(brought + 1, &[40; 3]), (0, Some(12)), "bits {}", brought + 1);
        assert_eq!(said(brought + 1, &[]), (53, None), "bits {}", brought + 1);
    }
}

/// A made graph and classes: its bytes, and those with the weights used in place of the weights.
fn given_and_used(random: &mut Random, n: usize, classes: &[u8], most: usize) -> [Vec<u8>; 2] {
    let graph = random.graph(n, classes.len(), most);
    let of_class = |(edge, class): (&Edge, &u8)| (edge.a, edge.b, used(edge.weight, *class));
    let edges: Vec<_> = graph.edges.iter().zip(classes).map(of_class).collect();
    [graph.to_sheet(), Graph::new(n, &edges).to_sheet()]
}

/// The same reply, byte by byte, as without a list where the weights used stand in the sheet.
#[test]
fn as_with_the_weights_used_in_the_sheet() {
    let mut random = Random::new(26);
    for turn in 0..400 {
        let n = random.between(2, 12);
        let classes: Vec<u8> = (0..random.between(0, 30)).map(|_| random.below(70) as u8).collect();
        let most = if turn % 2 == 0 { 9 } else { 500_000 };
        let [given, used] = given_and_used(&mut random, n, &classes, most);
        let (k, limit) = (random.between(1, n.min(4)), random.below(4 * most) as u64);
        for kind in [0, 1] {
            let same = |asked| {
                let with =
                    Question { asked, kind, k, sheet: &given, classes: Some(&classes), vans: None };
                let without = Question { sheet: &used, classes: None, ..with };
                let got = call(turn, &with, with.general());
                assert!(got == call(turn, &without, Through::Plain), "{with:?}");
                got
            };
            let [tried, best, within, ..] = all_of(limit, &[]);
            same(tried);
            same(within);
            let got = same(best);
            if got.case == 0 {
                all_of(0, written(&got))[3..].iter().for_each(|&asked| drop(same(asked)));
            }
        }
    }
}

/// The wrapper's lists: none, one of no bytes, and right ones.
#[test]
fn lists_of_the_wrapper() {
    let (sheet, cover) = (sheet_n([3, 3, 5]), two_trees(0, &[0, 1], &[]));
    let plain = planner::Question::new(Kind::Rooted, 2, &sheet);
    assert_eq!((plain.check(&cover), check(Kind::Rooted, 2, &sheet, &cover)), (Ok(6), Ok(6)));
    for (classes, due) in [(&[][..], Err(53)), (&[10, 20, 40], Ok(9)), (&[60; 3], Ok(6))] {
        let question = planner::Question { classes: Some(classes), ..plain };
        assert_eq!(question.check(&cover), due);
    }
}
