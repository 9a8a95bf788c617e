//! The records with a list of classes: how much they meet.

use std::collections::BTreeMap;

use crate::common::numbers::{number, question};
use crate::common::surfaces::{checked, listed, weight_due};
use crate::common::BOTH;
use reference::brought::Brought;
use reference::districts::{Asked, Record};
use reference::graph::{read, Edge};
use reference::made_surfaces::BORDERS;

/// The edges of a record's sheet, where it can be read.
fn edges(record: &Record) -> Option<Vec<Edge>> {
    read(&record.sheet).ok().map(|graph| graph.edges)
}

#[test]
fn every_question_brings_right_lists_and_wrong_ones() {
    let mut met: BTreeMap<(usize, u16), usize> = BTreeMap::new();
    for (record, _) in listed() {
        let number = record.brought().graph().err().unwrap_or(0);
        *met.entry((question(record), number)).or_default() += 1;
    }
    for question in 1..=6 {
        for (number, least) in [(0, 100), (16, 5), (53, 15), (54, 5)] {
            let count = met.get(&(question, number)).copied().unwrap_or(0);
            assert!(count > least, "question {question}, {number}: {met:?}");
        }
    }
    // A third as many as the records without a list.
    assert!((2_300..2_800).contains(&listed().len()), "{}", listed().len());
}

#[test]
fn every_class_is_met() {
    let answered: Vec<_> = listed().into_iter().filter(|(record, _)| number(record) == 0).collect();
    for class in 0..=255 {
        let is_met = |(record, list): &(&Record, &[u8])| {
            *list == [class] && matches!(record.asked, Asked::Check { .. })
        };
        assert!(answered.iter().any(is_met), "class {class}");
    }
    for class in BORDERS {
        for question_number in 1..=6 {
            let is_met = |(record, list): &&(&Record, &[u8])| {
                question(record) == question_number && list.len() > 1 && list.contains(&class)
            };
            let count = answered.iter().filter(is_met).count();
            assert!(count > 15, "class {class} in question {question_number}: {count}");
        }
    }
}

#[test]
fn lists_at_the_ends_of_the_rule_are_met() {
    let mut met: BTreeMap<&str, [usize; 3]> = BTreeMap::new();
    for (record, list) in listed() {
        let Some(edges) = edges(record) else { continue };
        let name = match (list.len(), edges.len()) {
            (0, 0) => "an empty list beside no edges",
            (0, _) => "an empty list beside edges",
            (have, m) if have + 1 == m => "one byte less",
            (have, m) if have == m + 1 => "one byte more",
            (have, m) if have == m => {
                let used = |(e, &class): (&Edge, &u8)| (weight_due(e.weight, class), e.weight);
                match edges.iter().zip(list).map(used).max() {
                    Some((1_000_000, ..1_000_000)) => "1,000,000",
                    Some((1_000_001, _)) => "1,000,001",
                    _ => continue,
                }
            }
            _ => continue,
        };
        let place = [0, 53, 54].iter().position(|&due| due == number(record));
        place.into_iter().for_each(|place| met.entry(name).or_default()[place] += 1);
    }
    // How many are answered, refused with 53, refused with 54; a count of 0 must be 0.
    let rows = [
        ("an empty list beside no edges", [12, 0, 0]),
        ("an empty list beside edges", [0, 20, 0]),
        ("one byte less", [0, 20, 0]),
        ("one byte more", [0, 20, 0]),
        ("1,000,000", [20, 0, 0]),
        ("1,000,001", [0, 0, 20]),
    ];
    for (name, least) in rows {
        let enough = met[name].iter().zip(least).all(|(&have, least)| have >= least);
        let none = met[name].iter().zip(least).all(|(&have, least)| least > 0 || have == 0);
        assert!(enough && none, "{name} of {met:?}");
    }
}

/// Each number that comes behind 53 and 54 is that of some question beside a wrong list; each that comes before them too.
#[test]
fn wrong_lists_stand_beside_every_other_number() {
    let mut met: BTreeMap<(u16, u16), usize> = BTreeMap::new();
    for (record, list) in listed() {
        let due = number(record);
        let without = number(&Record { classes: None, ..record.clone() });
        let is_wrong = edges(record).is_none_or(|edges| edges.len() != list.len());
        if due == 53 || due == 54 || (is_wrong && due > 0) {
            *met.entry((due, without)).or_default() += 1;
        }
    }
    for without in [21, 22, 23, 31, 32, 33, 34, 35] {
        for due in [53, 54] {
            assert!(met.contains_key(&(due, without)), "{due} before {without}: {met:?}");
        }
    }
    for due in 11..=16 {
        assert!(met.contains_key(&(due, due)), "{due} before 53: {met:?}");
    }
}

#[test]
fn the_largest_questions_bring_lists() {
    let along = |edges: &[Edge]| edges.iter().enumerate().all(|(i, e)| (e.a, e.b) == (i, i + 1));
    let around = |edges: &[Edge]| edges.iter().all(|e| e.a == 0 || e.b == 0);
    let mut met: BTreeMap<(usize, usize, bool, u16), usize> = BTreeMap::new();
    for (record, _) in listed() {
        let Some(edges) = edges(record) else { continue };
        let key = (question(record), edges.len(), along(&edges), number(record));
        if edges.len() == 2_048 || (edges.len() == 255 && (along(&edges) || around(&edges))) {
            *met.entry(key).or_default() += 1;
        }
    }
    for question in 1..=6 {
        for is_path in [true, false] {
            assert!(met.contains_key(&(question, 255, is_path, 0)), "{question} of {met:?}");
        }
    }
    let of_full_size = |due: u16| met.keys().filter(|key| key.1 == 2_048 && key.3 == due).count();
    assert_eq!([of_full_size(53), of_full_size(54)], [6, 3], "{met:?}");
    assert!([3, 4].iter().all(|&best| met.contains_key(&(best, 2_048, false, 0))), "{met:?}");
    let full =
        |record: &Record| matches!(&record.asked, Asked::Check { cover } if cover.len() == 32_708);
    let yes = listed().iter().filter(|(record, _)| full(record) && number(record) == 0).count();
    assert_eq!(yes, BOTH.len());
}

/// The heaviest weight of a filed cover is another than without the list.
#[test]
fn filed_covers_weigh_more_with_their_list() {
    let mut more = [0; 2];
    for (record, _) in listed() {
        let with = checked(record, record.brought());
        if let (Some(Ok(with)), Some(Ok(without))) =
            (with, checked(record, Brought::plain(&record.sheet)))
        {
            assert!(with >= without);
            more[record.kind as usize] += usize::from(with > without);
        }
    }
    assert!(more.iter().all(|&count| count > 100), "{more:?}");
}
