//! The records with a number of trials: how much they meet.

use std::collections::BTreeMap;

use crate::common::made_records;
use crate::common::numbers::{number, question};
use reference::districts::{encode, Asked, Record};
use reference::graph::read;
use reference::judge_districts::own_reply;
use reference::made_within::within;
use reference::question::{Answer, Kind};
use reference::within::{Known, TRIALS};

/// The records with a number of trials, with that number.
fn asked() -> Vec<(&'static Record, u64)> {
    let of = |record: &'static Record| match record.asked {
        Asked::Within { trials, .. } => Some((record, trials)),
        _ => None,
    };
    made_records().iter().filter_map(of).collect()
}

/// The limit and the heaviest weight of the reply to a record, if it is a cover, and what is known besides.
fn found(record: &Record) -> Option<(u64, u64, Known)> {
    match record.reply(&mut vec![0; record.room()])? {
        (Answer::Cover { limit, heaviest }, Some(known)) => Some((limit, heaviest, known)),
        _ => None,
    }
}

/// How often each name is met.
fn counted<T: Ord>(names: impl Iterator<Item = T>) -> BTreeMap<T, usize> {
    let mut met = BTreeMap::new();
    names.for_each(|name| *met.entry(name).or_default() += 1);
    met
}

/// The name of what is answered to a record.
fn answered(record: &Record) -> &'static str {
    match (found(record), own_reply(record).expect("no check").case) {
        (Some((_, _, known)), _) if known.spent => "spent",
        (Some((0, _, _)), _) => "0 accepted",
        (Some(_), _) => "at its end",
        (None, 4) => "no cover",
        _ => "refused",
    }
}

#[test]
fn they_come_last() {
    let (front, last) = made_records().split_at(made_records().len() - asked().len());
    assert!(last == within());
    assert!(front.iter().all(|record| !matches!(record.asked, Asked::Within { .. })));
    assert!((1_500..2_000).contains(&last.len()), "{}", last.len());
    let length = encode(last).len();
    assert!(length < 400_000, "{length}");
}

#[test]
fn both_kinds_are_answered_in_every_way() {
    let met = counted(asked().into_iter().map(|(r, _)| (question(r), answered(r))));
    for question in [7, 8] {
        for (name, least) in [
            ("spent", 250),
            ("at its end", 200),
            ("0 accepted", 60),
            ("no cover", 15),
            ("refused", 120),
        ] {
            assert!(met.get(&(question, name)) > Some(&least), "{name} in {question}: {met:?}");
        }
    }
    assert_eq!(met.len(), 10);
}

/// Every lawful number of trials with both kinds, answered: spent, but for some of the highest, and not.
#[test]
fn every_number_of_trials_is_met() {
    let met = counted(asked().into_iter().map(|(r, p)| (question(r), p, answered(r) == "spent")));
    for (question, p) in [7, 8].into_iter().flat_map(|q| TRIALS.map(move |p| (q, p))) {
        let count = |is_spent| met.get(&(question, p, is_spent)).copied().unwrap_or(0);
        assert!(count(true) + count(false) >= 2, "{p} in {question}: {met:?}");
        let is_late = [30, 31, 33].contains(&p);
        let least = if p <= 6 { 10 } else { 1 };
        assert!(count(false) >= least && (is_late || count(true) >= 1), "{p}: {met:?}");
        assert!(p > 6 || count(true) >= 10, "{p} in {question}: {met:?}");
    }
    for p in [0, 1, 34, 35, 258, 65_535, 65_538, 16_777_249, 4_294_967_295] {
        let refused = |question| met.get(&(question, p, false)).copied().unwrap_or(0);
        assert!(refused(7) >= 2 && refused(8) >= 2, "{p}: {met:?}");
    }
}

/// With no list, with either and with both, replies of every sort; an unrooted question leaves its vans unread.
#[test]
fn every_list_is_brought() {
    let met = counted(asked().into_iter().map(|(record, _)| {
        (question(record), record.classes.is_some(), record.vans.is_some(), answered(record))
    }));
    for (question, classes) in [(7, false), (7, true), (8, false), (8, true)] {
        for (vans, name) in [false, true]
            .into_iter()
            .flat_map(|v| ["spent", "at its end", "0 accepted", "refused"].map(|name| (v, name)))
        {
            let count = met.get(&(question, classes, vans, name)).copied().unwrap_or(0);
            let least = if name == "0 accepted" { 2 } else { 10 };
            assert!(count >= least, "{name} in {question}, {classes} {vans}: {met:?}");
        }
    }
}

/// Unlawful numbers of trials beside every other number and beside every answer; lawful ones beside every number too.
#[test]
fn wrong_numbers_of_trials_stand_beside_every_other_number() {
    let (mut unlawful, mut lawful, mut behind) =
        (BTreeMap::new(), BTreeMap::new(), BTreeMap::new());
    for (record, p) in asked() {
        let due = number(record);
        if TRIALS.contains(&p) {
            assert!(due != 56);
            *lawful.entry(due).or_insert(0) += 1;
            continue;
        }
        *unlawful.entry((due, p > 33)).or_insert(0) += 1;
        let room = record.room();
        let mended = Record { asked: Asked::Within { trials: 2, room }, ..record.clone() };
        let name = if due == 56 { answered(&mended) } else { "another number" };
        *behind.entry((question(record), name)).or_insert(0) += 1;
        assert_eq!(number(&mended), if due == 56 { 0 } else { due });
    }
    for number in [11, 12, 13, 14, 15, 16, 53, 54, 21, 55, 23] {
        let [below, above] = [false, true].map(|is| unlawful.get(&(number, is)).copied());
        // The sheet of too many edges is the largest, and is put once.
        assert!(below >= Some(1) && (above >= Some(1) || number == 13), "{number}: {unlawful:?}");
        assert!(lawful.get(&number) >= Some(&2) || number == 13, "{number}: {lawful:?}");
    }
    for (question, name) in
        [7, 8].into_iter().flat_map(|q| ["spent", "0 accepted", "no cover"].map(|n| (q, n)))
    {
        let count = behind.get(&(question, name)).copied().unwrap_or(0);
        assert!(count >= 5, "{name} in {question}: {behind:?}");
    }
}

/// Searches that end with just their p-th trial, and with fewer; floors that are 1, that are more, and that are high.
#[test]
fn searches_end_in_every_way() {
    let met = counted(asked().into_iter().filter_map(|(record, p)| {
        let (high, _, known) = found(record)?;
        let floor = match known.floor {
            0 | 1 => "low",
            floor if floor == high => "high",
            _ => "between",
        };
        Some((question(record), known.trials == p, known.spent, floor))
    }));
    for question in [7, 8] {
        for (is_p, spent, floor, least) in [
            (true, true, "low", 100),
            (true, true, "between", 60),
            (true, false, "high", 30),
            (false, false, "high", 60),
            (false, false, "low", 60),
        ] {
            let count = met.get(&(question, is_p, spent, floor)).copied().unwrap_or(0);
            assert!(count >= least, "{is_p} {spent} {floor} in {question}: {met:?}");
        }
        assert!(!met.keys().any(|key| (key.1, key.2) == (false, true)), "{met:?}");
    }
}

/// Two records that differ in the number of trials alone: the heaviest weight rises, falls and stays with more trials, high and
/// floor move by themselves, and the reply may be the same.
#[test]
fn more_trials_are_asked_of_one_question() {
    let mut of_question: BTreeMap<(usize, usize, &[u8], _, _), Vec<_>> = BTreeMap::new();
    for (record, p) in asked() {
        let key = (question(record), record.k, &record.sheet[..], &record.classes, &record.vans);
        let Some(found) = found(record) else { continue };
        of_question.entry(key).or_default().push((p, found));
    }
    let mut met = BTreeMap::new();
    for (key, replies) in &mut of_question {
        replies.sort_by_key(|reply| reply.0);
        replies.dedup_by_key(|reply| reply.0);
        for pair in replies.windows(2) {
            let ((_, (high, heaviest, known)), (_, (later, then, more))) = (pair[0], pair[1]);
            assert!(later <= high && more.floor >= known.floor, "{pair:?}");
            let moved = (later < high, more.floor > known.floor);
            *met.entry((key.0, moved, then.cmp(&heaviest))).or_insert(0) += 1;
        }
    }
    use std::cmp::Ordering::{Equal, Greater, Less};
    for question in [7, 8] {
        for (moved, order, least) in [
            ((true, false), Less, 10),
            ((true, false), Greater, 1),
            ((true, false), Equal, 10),
            ((false, true), Equal, 10),
            ((true, true), Less, 10),
            ((false, false), Equal, 10),
        ] {
            let count = met.get(&(question, moved, order)).copied().unwrap_or(0);
            assert!(count >= least, "{moved:?} {order:?} in {question}: {met:?}");
        }
    }
}

/// Sums of 0, 1 and 2, the largest, and graphs with weightless edges and of full size.
#[test]
fn sums_and_sizes_at_the_ends_are_met() {
    let graphs = asked().into_iter().filter_map(|(record, _)| {
        let graph = record.brought().graph().ok()?;
        Some((record, graph)).filter(|(record, _)| number(record) == 0)
    });
    let graphs: Vec<_> = graphs.collect();
    let sums = counted(graphs.iter().map(|(record, graph)| (question(record), graph.total())));
    for (question, sum) in [7, 8].into_iter().flat_map(|q| [0, 1, 2, 3].map(|sum| (q, sum))) {
        assert!(sums[&(question, sum)] >= 4, "{sum} in {question}: {sums:?}");
    }
    assert!(sums[&(7, 2_048_000_000)] >= 1 && sums[&(8, 2_048_000_000)] >= 1);
    let gated = graphs.iter().filter(|(_, graph)| graph.edges.iter().any(|edge| edge.weight == 0));
    assert!(gated.count() > 200);
    let size = |record: &Record| read(&record.sheet).map(|graph| (graph.n, graph.edges.len()));
    let sizes = counted(graphs.iter().map(|(record, _)| (question(record), size(record))));
    for question in [7, 8] {
        assert!(
            sizes[&(question, Ok((256, 2_048)))] >= 2 && sizes[&(question, Ok((256, 255)))] >= 6
        );
    }
}

/// Covers printed whole and not, spent and not.
#[test]
fn covers_are_printed_whole_and_not() {
    let met = counted(asked().into_iter().filter_map(|(record, _)| {
        let is_whole = encode(std::slice::from_ref(record))[10] == 1;
        Some((record.kind == Kind::Rooted, is_whole, found(record)?.2.spent))
    }));
    for spent in [true, false] {
        assert!(met[&(true, true, spent)] > 80 && met[&(true, false, spent)] > 60, "{met:?}");
        assert!(met[&(false, true, spent)] > 250, "{met:?}");
    }
}
