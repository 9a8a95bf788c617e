//! Surfaces: the percentage of every class, weights rounded up, 53 and 54 in their places, and the questions that a list of
//! classes goes with.

use crate::common::asking::Asked;
use crate::common::surfaces::{graph_due, percent_due};
use crate::common::{filing, sheet_n, BOTH};
use reference::best::best_with;
use reference::brought::Brought;
use reference::cover::filed_length;
use reference::graph::{read, sheet};
use reference::question::{Kind, BUFFER, LIMIT};
use reference::random::Random;
use reference::surface::{adjusted, percent};

#[test]
fn every_class_has_its_percentage() {
    (0..=255).for_each(|class| assert_eq!(percent(class), percent_due(class), "class {class}"));
    let borders = [(0, 9), (10, 19), (20, 39), (40, 59), (60, 255)];
    let due = [100, 120, 150, 200, 100];
    assert_eq!(borders.map(|(low, _)| percent(low)), due);
    assert_eq!(borders.map(|(_, high)| percent(high)), due);
    let classes = |due: u64| (0..=255).filter(|&class| percent(class) == due).count();
    assert_eq!([100, 120, 150, 200].map(classes), [10 + 196, 10, 20, 20]);
}

/// The least whole number that is not below weight times percent over 100.
#[test]
fn weights_are_rounded_up() {
    for class in [0, 10, 20, 40, 60] {
        for weight in (1..=3_000).chain(499_000..=501_000).chain(997_000..=1_000_000) {
            let (used, hundredfold) = (adjusted(weight, class), weight * percent_due(class));
            assert!(100 * used >= hundredfold, "{weight} of class {class}");
            assert!(100 * (used - 1) < hundredfold, "{weight} of class {class}");
        }
    }
    // Weight, class and the weight used.
    let rows: [(u64, u8, u64); 16] = [
        (1, 9, 1),
        (1, 10, 2),
        (1, 20, 2),
        (1, 59, 2),
        (1, 60, 1),
        (3, 20, 5),
        (4, 19, 5),
        (5, 10, 6),
        (6, 10, 8),
        (101, 39, 152),
        (500_000, 40, 1_000_000),
        (666_666, 39, 999_999),
        (666_667, 39, 1_000_001),
        (833_333, 10, 1_000_000),
        (833_334, 10, 1_000_001),
        (1_000_000, 255, 1_000_000),
    ];
    for (weight, class, due) in rows {
        assert_eq!(adjusted(weight, class), due, "{weight} of class {class}");
    }
    (0..=255).for_each(|class| assert_eq!(adjusted(0, class), 0, "class {class}"));
}

/// Sheet N with other weights.
fn weighed([a, b, c]: [u64; 3]) -> Vec<u8> {
    sheet(4, &[(0, 2, a), (2, 3, b), (1, 3, c)])
}

/// A filed cover of sheet N.
fn good() -> Vec<u8> {
    filing(&[0, 1], &[(0, 0), (0, 1)])
}

#[test]
fn lists_are_right_or_refused() {
    // Name, the weights of sheet N, the list of classes and the number due, 0 where the list is right.
    type Row = (&'static str, [u64; 3], Option<&'static [u8]>, u16);
    let rows: [Row; 26] = [
        ("no list", [3, 3, 5], None, 0),
        ("m bytes", [3, 3, 5], Some(&[0, 10, 255]), 0),
        ("a list of no bytes", [3, 3, 5], Some(&[]), 53),
        ("one byte less", [3, 3, 5], Some(&[0, 10]), 53),
        ("one byte more", [3, 3, 5], Some(&[0, 10, 255, 0]), 53),
        ("256 bytes more", [3, 3, 5], Some(&[60; 259]), 53),
        ("833,333 of class 10", [833_333, 3, 5], Some(&[10, 0, 0]), 0),
        ("833,334 of class 10", [833_334, 3, 5], Some(&[10, 0, 0]), 54),
        ("833,334 of class 9", [833_334, 3, 5], Some(&[9, 0, 0]), 0),
        ("666,666 of class 39", [3, 666_666, 5], Some(&[0, 39, 0]), 0),
        ("666,667 of class 39", [3, 666_667, 5], Some(&[0, 39, 0]), 54),
        ("666,667 of class 19", [3, 666_667, 5], Some(&[0, 19, 0]), 0),
        ("500,000 of class 59", [3, 3, 500_000], Some(&[0, 0, 59]), 0),
        ("500,001 of class 59", [3, 3, 500_001], Some(&[0, 0, 59]), 54),
        ("500,001 of class 60", [3, 3, 500_001], Some(&[0, 0, 60]), 0),
        ("1,000,000 of no list", [1_000_000; 3], None, 0),
        ("1,000,000 of 100 percent", [1_000_000; 3], Some(&[0, 60, 255]), 0),
        ("1,000,000 of class 10", [3, 3, 1_000_000], Some(&[0, 0, 10]), 54),
        ("53 before an earlier 54", [1_000_000, 3, 5], Some(&[40]), 53),
        ("53 before 54, too long", [1_000_000, 3, 5], Some(&[40, 0, 0, 0]), 53),
        ("16 before 53", [1_000_001, 3, 5], Some(&[]), 16),
        ("16 of the weight as given", [1_000_001, 3, 5], Some(&[40, 0, 0]), 16),
        ("16 before an earlier 54", [1_000_000, 3, 1_000_001], Some(&[40, 0, 0]), 16),
        ("16 before 53 and 54", [1_000_000, 1_000_001, 5], Some(&[40; 4]), 16),
        ("weight 0 stays 0", [3, 0, 5], Some(&[40; 3]), 0),
        ("weight 0 of every class", [0, 0, 0], Some(&[10, 20, 255]), 0),
    ];
    for (name, weights, classes, due) in rows {
        let brought = Brought { sheet: &weighed(weights), classes, vans: None };
        assert_eq!(brought.graph().err().unwrap_or(0), due, "{name}");
        let cover = good();
        let asked = Asked { brought, k: 2, limit: 9, room: BUFFER, cover: &cover, tree: 0 };
        BOTH.iter().for_each(|&kind| assert_eq!(asked.numbers(kind), [due; 4], "{name}"));
    }
}

/// Every number that can stand beside a wrong list: 11 to 15 come before 53, all from 21 on behind 54.
#[test]
fn lists_are_refused_in_their_place() {
    let right = |sheet: Vec<u8>| (sheet, vec![9, 10, 60], 0);
    let short = |sheet: Vec<u8>| (sheet, vec![9, 10], 53);
    let heavy = (weighed([3, 3, 833_334]), vec![9, 10, 10], 54);
    // The second column is of k, limit, buffer length, filed cover and tree; the last of the numbers with a right list.
    type Row = (&'static str, (u64, u64, usize, Vec<u8>, usize), [u16; 4]);
    let rows: [Row; 13] = [
        ("nothing else", (2, 9, BUFFER, good(), 1), [0, 0, 0, 0]),
        ("k 0", (0, LIMIT + 1, 0, vec![], 2), [21, 21, 21, 21]),
        ("k 33", (33, 9, BUFFER, good(), 0), [21, 21, 21, 21]),
        ("limit", (2, LIMIT + 1, BUFFER, good(), 0), [22, 0, 0, 0]),
        ("limit and buffer", (2, LIMIT + 1, 1_022, good(), 0), [22, 23, 0, 0]),
        ("buffer", (2, 9, BUFFER - 1, good(), 0), [23, 23, 0, 0]),
        ("no buffer", (2, 9, 0, good(), 1), [23, 23, 0, 52]),
        ("tree", (2, 9, BUFFER, good(), 2), [0, 0, 0, 51]),
        ("cover's length", (2, 9, BUFFER, vec![], 0), [0, 0, 31, 31]),
        ("starts", (2, 9, BUFFER, filing(&[0, 4], &[]), 0), [0, 0, 32, 32]),
        ("entries", (2, 9, BUFFER, filing(&[0, 1], &[(0, 3)]), 0), [0, 0, 33, 33]),
        ("not joined", (2, 9, BUFFER, filing(&[0, 1], &[(0, 1)]), 0), [0, 0, 34, 34]),
        ("uncovered", (2, 9, BUFFER, filing(&[0, 1], &[]), 0), [0, 0, 35, 35]),
    ];
    for (name, (k, limit, room, cover, tree), numbers) in &rows {
        for (sheet, classes, number) in [right(sheet_n()), short(sheet_n()), heavy.clone()] {
            let brought = Brought { classes: Some(&classes), ..Brought::plain(&sheet) };
            let asked = Asked { brought, k: *k, limit: *limit, room: *room, cover, tree: *tree };
            let due = if number == 0 { *numbers } else { [number; 4] };
            for kind in BOTH {
                assert_eq!(asked.numbers(kind), due, "{name}, {number}, {kind:?}");
            }
        }
    }
    let bad = [sheet(0, &[]), sheet(4, &[(0, 4, 1)]), sheet(4, &[(1, 1, 1)]), vec![4, 0, 0]];
    for (sheet, number) in bad.iter().zip([12, 14, 15, 11]) {
        for classes in [&[][..], &[40], &[40, 40]] {
            let brought = Brought { classes: Some(classes), ..Brought::plain(sheet) };
            assert_eq!(brought.graph(), Err(number), "{number}");
        }
    }
}

/// No lines at all: the list of no bytes is right, and as good as no list.
#[test]
fn a_list_of_no_bytes_is_right_beside_no_lines_only() {
    let (bare, edge) = (sheet(2, &[]), sheet(2, &[(0, 1, 1)]));
    let cover = filing(&[0, 1], &[]);
    let on = |sheet, classes| {
        let brought = Brought { classes, ..Brought::plain(sheet) };
        Asked { brought, k: 2, limit: 0, room: BUFFER, cover: &cover, tree: 0 }
    };
    for kind in BOTH {
        assert_eq!(on(&bare, None).numbers(kind), [0; 4]);
        assert_eq!(on(&bare, Some(&[])).said(kind), on(&bare, None).said(kind));
        assert_eq!(on(&bare, Some(&[60])).numbers(kind), [53; 4]);
        assert_eq!(on(&edge, None).numbers(kind), [0; 4]);
        assert_eq!(on(&edge, Some(&[])).numbers(kind), [53; 4]);
    }
}

/// A random question without a list: sheet, k, limit, cover and tree; the cover is that of the best limit, if there is one.
fn random_question(random: &mut Random, kind: Kind) -> (Vec<u8>, u64, u64, Vec<u8>, usize) {
    let (n, m) = (random.between(1, 7), random.between(0, 11));
    let most = [3, 9, 833_333][random.below(3)];
    let graph = random.any_graph(n, m, most);
    let k = random.between(1, n.min(3)) as u64;
    let limit = random.below(2 * graph.total() as usize + 1) as u64 / k;
    let mut lent = vec![0; BUFFER];
    best_with(kind, Brought::plain(&graph.to_sheet()), k, &mut lent);
    let cover = lent[..filed_length(&lent).expect("four bytes")].to_vec();
    (graph.to_sheet(), k, limit, cover, random.below(k as usize))
}

#[test]
fn no_list_is_class_60_throughout_and_class_0_throughout() {
    let mut random = Random::new(91);
    for turn in 0..400 {
        let kind = BOTH[turn % 2];
        let (sheet, k, limit, cover, tree) = random_question(&mut random, kind);
        let said = |classes: Option<&[u8]>| {
            let brought = Brought { classes, ..Brought::plain(&sheet) };
            Asked { brought, k, limit, room: BUFFER, cover: &cover, tree }.said(kind)
        };
        let m = read(&sheet).expect("a right sheet").edges.len();
        for class in [60, 0] {
            assert!(said(Some(&vec![class; m])) == said(None), "class {class} beside {sheet:?}");
        }
    }
}

/// A list says what a sheet of the weights due says without one, and where one of them is too high, 54.
#[test]
fn a_list_is_as_good_as_a_sheet_of_the_weights_due() {
    let mut random = Random::new(92);
    let (mut changed, mut refused) = ([0; 4], 0);
    for turn in 0..1_200 {
        let kind = BOTH[turn % 2];
        let (sheet, k, limit, cover, tree) = random_question(&mut random, kind);
        let said = |sheet: &[u8], classes: Option<&[u8]>| {
            let brought = Brought { classes, ..Brought::plain(sheet) };
            Asked { brought, k, limit, room: BUFFER, cover: &cover, tree }.said(kind)
        };
        let graph = read(&sheet).expect("a right sheet");
        let classes: Vec<u8> = graph.edges.iter().map(|_| random.below(75) as u8).collect();
        let due = graph_due(&graph, &classes);
        let (listed, plain) = (said(&sheet, Some(&classes)), said(&sheet, None));
        if due.edges.iter().any(|edge| edge.weight > 1_000_000) {
            assert!(listed.iter().all(|(said, _)| said == "Err(54)"), "{listed:?}");
            refused += 1;
            continue;
        }
        assert!(listed == said(&due.to_sheet(), None), "{kind:?} k {k} {graph:?} {classes:?}");
        (0..4).for_each(|i| changed[i] += usize::from(listed[i] != plain[i]));
    }
    assert!(changed.iter().all(|&count| count > 200) && refused > 100, "{changed:?} {refused}");
}
