//! A wrong reading of the rule of classes would show in the records.

use std::ops::RangeInclusive;

use crate::common::surfaces::{checked, listed, percent_due, weight_due};
use reference::brought::Brought;
use reference::districts::{Asked, Record};
use reference::graph::{read, Edge, Graph};
use reference::judge_districts::{judge_reply, own_reply};
use reference::replies::Full;

/// A reading of the rule: the graph that a list makes of a sheet's, or a number.
type Reading = Box<dyn Fn(&Graph, &[u8]) -> Result<Graph, u16>>;

/// A wrong reading and what is wrong with it.
type Named = (String, Reading);

fn named(name: &str, reading: Reading) -> Named {
    (name.to_string(), reading)
}

/// The graph of the weights used, whatever they are.
fn used(graph: &Graph, classes: &[u8], weight: impl Fn(u64, u8) -> u64) -> Graph {
    let edge = |(e, &class): (&Edge, &u8)| Edge { weight: weight(e.weight, class), ..*e };
    Graph { n: graph.n, edges: graph.edges.iter().zip(classes).map(edge).collect() }
}

/// 53 for a list that is not of m bytes.
fn of_length(m: usize, classes: &[u8]) -> Result<(), u16> {
    if classes.len() == m {
        Ok(())
    } else {
        Err(53)
    }
}

/// 54 for an edge of this weight or more.
fn below(weight: u64, graph: &Graph) -> Result<(), u16> {
    if graph.edges.iter().all(|edge| edge.weight < weight) {
        Ok(())
    } else {
        Err(54)
    }
}

/// The reading that is right but for the weight used, and for the least weight that is refused.
fn up_to(refused: u64, weight: impl Fn(u64, u8) -> u64 + 'static) -> Reading {
    Box::new(move |graph, classes| {
        let used = used(graph, classes, &weight);
        of_length(graph.edges.len(), classes)?;
        below(refused, &used)?;
        Ok(used)
    })
}

/// The reading that is right but for the weight used.
fn by(weight: impl Fn(u64, u8) -> u64 + 'static) -> Reading {
    up_to(1_000_001, weight)
}

/// Wrong weights: other roundings, and the list left unread.
fn wrong_weights() -> Vec<Named> {
    let whole = |weight, class| weight * percent_due(class) / 100;
    let nearest = |weight, class| (weight * percent_due(class) + 50) / 100;
    vec![
        named("rounded down", by(whole)),
        named("rounded to the nearest", by(nearest)),
        named("one more where nothing is left", by(move |weight, class| whole(weight, class) + 1)),
        named("the list unread", by(|weight, _| weight)),
    ]
}

/// Wrong percentages: each class at a border counted as its neighbour is, and all the others otherwise.
fn wrong_percentages() -> Vec<Named> {
    let rows = [
        (9..=9, 120),
        (10..=10, 100),
        (19..=19, 150),
        (20..=20, 120),
        (39..=39, 200),
        (40..=40, 150),
        (59..=59, 100),
        (60..=60, 200),
        (60..=255, 150),
    ];
    let reading = |(classes, percent): (RangeInclusive<u8>, u64)| {
        let name = format!("classes {classes:?} counted {percent}");
        let counted =
            move |class| if classes.contains(&class) { percent } else { percent_due(class) };
        (name, by(move |weight, class| (weight * counted(class)).div_ceil(100)))
    };
    rows.map(reading).into()
}

/// Numbers 53 and 54 in the wrong order, and 54 for too many weights or none.
fn wrong_numbers() -> Vec<Named> {
    let exchanged = |graph: &Graph, classes: &[u8]| {
        let used = used(graph, classes, weight_due);
        below(1_000_001, &used)?;
        of_length(graph.edges.len(), classes)?;
        Ok(used)
    };
    vec![
        named("1,000,000 refused", up_to(1_000_000, weight_due)),
        named("no adjusted weight refused", up_to(u64::MAX, weight_due)),
        named("54 before 53", Box::new(exchanged)),
    ]
}

/// Lists of a wrong length made right.
fn wrong_lists() -> Vec<Named> {
    let of = |other: fn(usize, &[u8]) -> Vec<u8>| -> Reading {
        let right = by(weight_due);
        Box::new(move |graph, classes| right(graph, &other(graph.edges.len(), classes)))
    };
    let unlisted =
        |m, classes: &[u8]| if classes.is_empty() { vec![60; m] } else { classes.into() };
    let cut = |m, classes: &[u8]| classes.iter().copied().take(m).collect();
    let filled = |m: usize, classes: &[u8]| {
        let more = m.saturating_sub(classes.len());
        [classes, &vec![60; more]].concat()
    };
    vec![
        named("an empty list taken for none", of(unlisted)),
        named("a longer list cut", of(cut)),
        named("a shorter list filled up", of(filled)),
    ]
}

/// Whether a reading's reply to a record is wrong.
fn shows(record: &Record, list: &[u8], reading: &Reading) -> bool {
    let Ok(graph) = read(&record.sheet) else { return false };
    let read_so = reading(&graph, list);
    let refused =
        |number: u16| Full { case: number.into(), values: vec![], front: vec![], rest: 1 };
    match (checked(record, record.brought()), read_so) {
        (Some(due), Err(number)) => due != Err(number),
        (Some(due), Ok(graph)) => checked(record, Brought::plain(&graph.to_sheet())) != Some(due),
        (None, Err(number)) => judge_reply(record, &refused(number)).is_err(),
        (None, Ok(graph)) => {
            let asked = Record { sheet: graph.to_sheet(), classes: None, ..record.clone() };
            judge_reply(record, &own_reply(&asked).expect("no check")).is_err()
        }
    }
}

#[test]
fn a_wrong_reading_would_show() {
    let small: Vec<_> = listed().into_iter().filter(|(r, _)| r.sheet.len() < 1_000).collect();
    let right = by(weight_due);
    assert!(!small.iter().any(|(record, list)| shows(record, list, &right)));
    let wrong = [wrong_weights(), wrong_percentages(), wrong_numbers(), wrong_lists()];
    for (name, reading) in wrong.into_iter().flatten() {
        for is_check in [true, false] {
            let is_asked = |r: &Record| matches!(r.asked, Asked::Check { .. }) == is_check;
            let is_shown = |(record, list): &&(&Record, &[u8])| {
                is_asked(record) && shows(record, list, &reading)
            };
            let count = small.iter().filter(is_shown).count();
            assert!(count >= 10, "{name}, checks {is_check}: {count}");
        }
    }
}
