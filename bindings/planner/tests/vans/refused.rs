//! Lists of vans that are refused with 55, what is refused before and behind them, and starts that are not those of a list.

use super::manned;
use crate::common::call::{call, Asked, Question, Through, CLASSES, VANS};
use crate::common::judged::judged;
use crate::sheets::{all_of, sheet_n};
use planner::{BUFFER, WALK_BUFFER};
use reference::cover::{encode, Tree};
use reference::graph::{read, sheet};
use reference::made_shapes::damaged_sheets;
use reference::random::Random;
use reference::vans::bytes;

/// Edges of weight 1 around vertex 0.
fn star(n: usize) -> Vec<u8> {
    sheet(n, &(1..n).map(|v| (0, v, 1)).collect::<Vec<_>>())
}

/// A cover of the star: all edges in the tree of the first van, none in the others.
fn cover_of_star(n: usize, vans: &[usize]) -> Vec<u8> {
    let edges = |j| if j == 0 { (0..n - 1).collect() } else { vec![] };
    encode(&vans.iter().enumerate().map(|(j, &van)| Tree::new(van, edges(j))).collect::<Vec<_>>())
}

/// Trees by their starts and edges.
type Trees<'a> = &'a [(usize, &'a [usize])];

/// The bytes of trees, their edges in the order given.
fn filed(trees: Trees) -> Vec<u8> {
    let tree = |&(start, edges): &(usize, &[usize])| Tree { start, edges: edges.to_vec() };
    encode(&trees.iter().map(tree).collect::<Vec<_>>())
}

/// 55 exactly where there are not 2k bytes, at lengths too whose lowest byte, or two, are those of 2k.
#[test]
fn lists_of_other_lengths() {
    let mut random = Random::new(60);
    for (n, k) in [(1, 1), (1, 4), (4, 2), (4, 5), (256, 32)] {
        let (sheet, cover) = (star(n), cover_of_star(n, &vec![0; k]));
        let wide = [256 + 2 * k, 512 + 2 * k, 65_536 + 2 * k, 131_072 + 2 * k];
        for length in (0..=2 * k + 4).chain(wide) {
            let vans = vec![0; length];
            let due = if length == 2 * k { 0 } else { 55 };
            for asked in all_of(n as u64, &cover) {
                let said = judged(&mut random, &manned(asked, k, &sheet, &vans));
                assert_eq!(said, due, "n {n} k {k} length {length} {asked:?}");
            }
        }
    }
}

/// 55 exactly where a vertex is not below n, at every place, by its high byte too.
#[test]
fn vertices_that_are_not_there() {
    let mut random = Random::new(61);
    for (n, k) in [(1, 1), (1, 3), (4, 2), (4, 5), (255, 32), (256, 32)] {
        let sheet = star(n);
        let vertices = [n - 1, n, n + 1, n + 255, n + 256, 255, 256, 512, 65_280, 65_535];
        for (vertex, place) in vertices.iter().flat_map(|&v| [0, k / 2, k - 1].map(|p| (v, p))) {
            let mut vans = vec![0; k];
            vans[place] = vertex;
            let (cover, vans) = (cover_of_star(n, &vans), bytes(&vans));
            let due = if vertex < n { 0 } else { 55 };
            for asked in all_of(n as u64, &cover) {
                let said = judged(&mut random, &manned(asked, k, &sheet, &vans));
                assert_eq!(said, due, "n {n} vertex {vertex} at {place} of {k} {asked:?}");
            }
        }
    }
}

/// Wrong lists for two vans on four vertices.
const WRONG: [&[u8]; 5] = [&[], &[3, 0, 0], &[4, 0, 0, 0], &[3, 0, 0, 1], &[3, 0, 0, 0, 0, 0]];

/// Everything that a question can have wrong behind its sheet and its lists: limit, room, cover, tree.
fn all_wrong<'a>(covers: &'a [(Vec<u8>, u32)]) -> Vec<Asked<'a>> {
    let mut all = vec![Asked::Trial { limit: u64::MAX, room: 0 }, Asked::Best { room: 0 }];
    all.push(Asked::Within { trials: 34, room: 0 });
    for (cover, _) in covers {
        all.extend([Asked::Check { cover }, Asked::Walk { cover, tree: 2, room: 0 }]);
    }
    all
}

/// Covers of sheet N from vans 3 and 0, each with a fault and its number.
fn wrong_covers() -> [(Vec<u8>, u32); 5] {
    [
        (vec![], 31),
        (filed(&[(0, &[2, 1]), (3, &[])]), 32),
        (filed(&[(3, &[2, 1]), (0, &[])]), 33),
        (filed(&[(3, &[0]), (0, &[])]), 34),
        (filed(&[(3, &[1]), (0, &[])]), 35),
    ]
}

/// Everything wrong at once, then one fault less after the other: each number in its turn, and 55 straight after 21. Beside an
/// unrooted question the list is no fault.
#[test]
fn numbers_in_their_order() {
    let mut random = Random::new(62);
    let covers = wrong_covers();
    let (good, heavy, too_heavy) = ([3, 3, 5], [1_000_000, 3, 5], [1_000_000, 3, 1_000_001]);
    for (kind, vans) in [0, 1].into_iter().flat_map(|kind| WRONG.map(|vans| (kind, vans))) {
        let mut said = |sheet: &[u8], classes: &[u8], k, asked| {
            let classes = Some(classes);
            judged(&mut random, &Question { kind, classes, ..manned(asked, k, sheet, vans) })
        };
        for asked in all_wrong(&covers) {
            for sheet in damaged_sheets().iter().filter(|sheet| sheet.len() < 100) {
                let due = u32::from(read(sheet).expect_err("a damaged sheet"));
                assert_eq!(said(sheet, &[40; 2], 33, asked), due);
            }
            assert_eq!(said(&sheet_n(too_heavy), &[40; 2], 33, asked), 16);
            assert_eq!(said(&sheet_n(heavy), &[40; 2], 33, asked), 53);
            assert_eq!(said(&sheet_n(heavy), &[40; 3], 33, asked), 54);
            assert_eq!(said(&sheet_n(good), &[40; 3], 33, asked), 21);
            let due = match asked {
                _ if kind == 0 => 55,
                Asked::Trial { .. } => 22,
                Asked::Best { .. } | Asked::Within { .. } => 23,
                Asked::Check { cover } | Asked::Walk { cover, .. } if cover.is_empty() => 31,
                _ => continue,
            };
            assert_eq!(said(&sheet_n(good), &[40; 3], 2, asked), due);
        }
    }
    let too_many = sheet(2, &vec![(0, 1, 1); 2_049]);
    for asked in all_wrong(&covers) {
        assert_eq!(judged(&mut random, &manned(asked, 33, &too_many, WRONG[0])), 13);
    }
}

/// The numbers behind 55, by the right list.
#[test]
fn numbers_behind_the_list() {
    let mut random = Random::new(63);
    let (sheet, covers) = (sheet_n([3, 3, 5]), wrong_covers());
    let cover = &filed(&[(3, &[1, 2]), (0, &[])])[..];
    for classes in [None, Some(&[40; 3][..])] {
        let mut said = |asked| {
            let question = manned(asked, 2, &sheet, &[3, 0, 0, 0]);
            judged(&mut random, &Question { classes, ..question })
        };
        assert_eq!(said(Asked::Trial { limit: u64::MAX, room: 0 }), 22);
        assert_eq!(said(Asked::Trial { limit: 2_048_000_001, room: BUFFER }), 22);
        assert_eq!(said(Asked::Trial { limit: 20, room: BUFFER - 1 }), 23);
        assert_eq!(said(Asked::Best { room: BUFFER - 1 }), 23);
        for (cover, number) in &covers {
            assert_eq!(said(Asked::Check { cover }), *number);
            assert_eq!(said(Asked::Walk { cover, tree: 2, room: 0 }), *number);
        }
        assert_eq!(said(Asked::Walk { cover, tree: 2, room: 0 }), 51);
        assert_eq!(said(Asked::Walk { cover, tree: 1, room: WALK_BUFFER - 1 }), 52);
        assert_eq!(all_of(20, cover).map(said), [0; 5]);
    }
}

/// 21 is for k outside 1 to 32, and, without a list, for k above n in a rooted question; a wrong list is a list.
#[test]
fn more_vans_than_vertices() {
    let mut random = Random::new(64);
    let wide = [65_536 + 2, (1 << 32) + 2, usize::MAX];
    for (n, k) in [1, 4, 31, 32]
        .iter()
        .flat_map(|&n| [0, n, n + 1, 32, 33].into_iter().chain(wide).map(move |k| (n, k)))
    {
        let sheet = star(n);
        let count = if k < 40 { k } else { 2 };
        let (vans, longer) = (bytes(&vec![0; count]), vec![0; 2 * count + 1]);
        let (rooted, row) =
            (cover_of_star(n, &vec![0; count]), cover_of_star(n, &(0..count).collect::<Vec<_>>()));
        let outside = !(1..=32).contains(&k);
        let due = |number| if outside { 21 } else { number };
        let mut said = |kind, vans, cover| {
            let put = |asked| Question { kind, vans, ..manned(asked, k, &sheet, &[]) };
            all_of(n as u64, cover).map(|asked| judged(&mut random, &put(asked)))
        };
        assert_eq!(said(0, Some(&vans), &rooted), [due(0); 5], "n {n} k {k}");
        assert_eq!(said(0, Some(&longer), &rooted), [due(55); 5]);
        let without = if outside || k > n { 21 } else { 0 };
        assert_eq!(said(0, None, &row), [without; 5], "n {n} k {k}");
        let wrong = Some(&[9; 3][..]);
        let lists = [(1, None), (1, Some(&vans[..])), (1, wrong), (2, wrong), (u32::MAX, wrong)];
        for (kind, vans) in lists {
            assert_eq!(said(kind, vans, &rooted), [due(0); 5], "kind {kind} n {n} k {k} {vans:?}");
        }
    }
}

/// 32 holds starts against the list: as many, in its order, and not 0 to k - 1. Vans at one vertex may exchange their trees.
#[test]
fn starts_by_the_list() {
    let mut random = Random::new(65);
    let sheet = sheet_n([3, 3, 5]);
    let rows: [([usize; 2], Trees, u32); 11] = [
        ([3, 0], &[(3, &[1, 2]), (0, &[])], 0),
        ([3, 0], &[(0, &[]), (3, &[1, 2])], 32),
        ([0, 3], &[(0, &[]), (3, &[1, 2])], 0),
        ([3, 0], &[(0, &[0, 1]), (1, &[])], 32),
        ([0, 1], &[(0, &[0, 1]), (1, &[])], 0),
        ([3, 0], &[(3, &[0, 1, 2])], 32),
        ([3, 0], &[(3, &[1, 2]), (0, &[]), (0, &[])], 32),
        ([3, 0], &[(3, &[1, 2]), (3, &[0])], 32),
        ([3, 3], &[(3, &[0, 1]), (3, &[2])], 0),
        ([3, 3], &[(3, &[2]), (3, &[0, 1])], 0),
        ([3, 3], &[(3, &[2]), (3, &[1])], 35),
    ];
    for (vans, trees, due) in rows {
        let (vans, cover) = (bytes(&vans), filed(trees));
        for &asked in &all_of(0, &cover)[3..] {
            let said = judged(&mut random, &manned(asked, 2, &sheet, &vans));
            assert_eq!(said, due, "{vans:?} {trees:?}");
        }
    }
}

/// The second bit alone says whether vans are brought, whatever is said of classes, here wrong ones that are not brought or
/// those that no list means.
#[test]
fn the_bits_of_the_lists() {
    let (sheet, cover) = (sheet_n([3, 3, 5]), filed(&[(3, &[0, 1]), (3, &[2])]));
    let question = manned(Asked::Check { cover: &cover }, 2, &sheet, &[]);
    let said = |brought, vans| {
        let classes = if brought & CLASSES == 0 { &[40; 2][..] } else { &[60; 3] };
        call(66, &question, Through::General { brought, classes, vans }).case
    };
    for brought in [0, 1, 4, 5, 8, 252, 253, 256, 512, 1 << 16, 1 << 31, !3, !2] {
        for vans in [&[][..], &[3, 0, 3], &[3, 0, 3, 0], &[9, 9]] {
            assert_eq!(said(brought, vans), 32, "bits {brought}");
        }
        assert_eq!(said(brought | VANS, &[3, 0, 3, 0]), 0, "bits {}", brought | VANS);
        assert_eq!(said(brought | VANS, &[]), 55, "bits {}", brought | VANS);
    }
}

/// Class bytes in the place of vans and the other way round: refused by their lengths or by their vertices, and otherwise
/// read as what they stand for.
#[test]
fn lists_that_are_exchanged() {
    let mut random = Random::new(67);
    let (three, four) = (sheet_n([3, 3, 5]), star(5));
    let vans = &[3, 0, 0, 0][..];
    let rows: [(&[u8], &[u8], u32); 4] = [
        (&three, &[10, 20, 40], 53),
        (&four, &[10, 20, 40, 59], 55),
        (&four, &[1, 0, 0, 1], 55),
        (&four, &[4, 0, 1, 0], 32),
    ];
    for (sheet, classes, due) in rows {
        let cover = &if sheet == three {
            filed(&[(3, &[1, 2]), (0, &[])])
        } else {
            cover_of_star(5, &[3, 0])
        };
        for (number, asked) in all_of(20, cover).into_iter().enumerate() {
            let mut said = |classes, vans| {
                let question = Question { classes: Some(classes), ..manned(asked, 2, sheet, vans) };
                judged(&mut random, &question)
            };
            assert_eq!(said(classes, vans), 0, "{classes:?}");
            // Only what files a cover has starts.
            let due = if due == 32 && number < 3 { 0 } else { due };
            assert_eq!(said(vans, classes), due, "{classes:?}");
        }
    }
}

/// Each byte of a sheet, its lists and a cover set to every other number, one at a time: answered as the reference allows.
#[test]
fn any_byte_altered() {
    let mut random = Random::new(68);
    let (sheet, classes, vans) = (sheet_n([3, 0, 5]), [10, 20, 40], bytes(&[3, 0, 3]));
    let cover = filed(&[(3, &[1, 2]), (0, &[]), (3, &[])]);
    let ends = [sheet.len(), classes.len(), vans.len()];
    let whole = [&sheet[..], &classes, &vans, &cover].concat();
    let places = 0..whole.len();
    let mut met = [0; 64];
    for (place, byte) in places.flat_map(|place| (0..=255).map(move |byte| (place, byte))) {
        let mut altered = whole.clone();
        altered[place] = byte;
        let (sheet, lists) = altered.split_at(ends[0]);
        let (classes, lists) = lists.split_at(ends[1]);
        let (vans, cover) = lists.split_at(ends[2]);
        // Trials and searches have no cover.
        let first = if place < ends.iter().sum() { 0 } else { 3 };
        for &asked in &all_of(6, cover)[first..] {
            let question = Question { classes: Some(classes), ..manned(asked, 3, sheet, vans) };
            met[judged(&mut random, &question) as usize] += 1;
        }
    }
    for case in [0, 1, 4, 11, 12, 14, 15, 16, 54, 55, 31, 32, 33, 34, 35] {
        assert!(met[case] > 0, "case {case} is not met: {met:?}");
    }
}
