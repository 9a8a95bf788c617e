//! The records with a list of vans: how much they meet.

use std::collections::BTreeMap;

use crate::common::made_records;
use crate::common::numbers::{number, question};
use reference::bytes::two;
use reference::cover::{decode, gather};
use reference::districts::{text, Asked, Record};
use reference::graph::read;
use reference::judge_districts::own_reply;
use reference::made_vans::listed_vans;
use reference::question::Kind;
use reference::vans::{bytes, is_first};

/// Whether a record has a number of trials; those are counted in `made_within`.
fn is_within(record: &Record) -> bool {
    matches!(record.asked, Asked::Within { .. })
}

/// The records that bring a list of vans, with the list, but for those with a number of trials.
fn listed() -> Vec<(&'static Record, &'static [u8])> {
    let untimed = made_records().iter().filter(|record| !is_within(record));
    untimed.filter_map(|record| Some((record, record.vans.as_deref()?))).collect()
}

/// The roots that a list names to an answered rooted question.
fn roots(record: &Record, list: &[u8]) -> Option<Vec<usize>> {
    let is_read = record.kind == Kind::Rooted && number(record) == 0;
    is_read.then(|| list.chunks(2).map(|pair| two(pair, 0)).collect())
}

/// How often each name is met.
fn counted<T: Ord>(names: impl Iterator<Item = T>) -> BTreeMap<T, usize> {
    let mut met = BTreeMap::new();
    names.for_each(|name| *met.entry(name).or_default() += 1);
    met
}

#[test]
fn they_come_last_of_all_without_a_number_of_trials() {
    let made = listed_vans();
    let end = made_records().iter().position(is_within).expect("records with trials");
    let (before, last) = made_records()[..end].split_at(end - made.len());
    assert!(last == made && before.iter().all(|record| record.vans.is_none()));
    assert!((1_100..1_300).contains(&listed().len()), "{}", listed().len());
    // Three without a list, which are refused with 21 where a list is not.
    assert_eq!(made.len() - listed().len(), 3);
}

#[test]
fn every_question_brings_right_lists_and_wrong_ones() {
    let met = counted(listed().iter().map(|(record, _)| {
        let number = number(record);
        (question(record), if number == 0 || number == 55 { number } else { 1 })
    }));
    for (question, due, least) in [(1, 0, 300), (3, 0, 100), (5, 0, 100)] {
        assert!(met[&(question, due)] > least, "{met:?}");
        assert!(met[&(question, 55)] > 25, "{met:?}");
        assert!(met[&(question, 1)] > 20, "{met:?}");
        assert!(met[&(question + 1, 0)] > 12 && !met.contains_key(&(question + 1, 55)), "{met:?}");
    }
}

/// What is printed first for a record, without its numbers unless it is refused.
fn opening(record: &Record) -> String {
    let text = text(std::slice::from_ref(record));
    let words: Vec<&str> = text.lines().next().expect("a line").split(' ').collect();
    match words[..] {
        ["cover", _, "yes", _] | ["too", "low", "parts"] => format!("{} free", words[0]),
        ["too", "low", word, ..] => format!("too low {word}"),
        ["refused", number] => format!("refused {number}"),
        _ => words[0].to_string(),
    }
}

#[test]
fn every_reply_and_every_number_is_met() {
    let met = counted(listed().iter().map(|(record, _)| opening(record)));
    let replies = [
        ("cover", 150),
        ("cover free", 200),
        ("too low stop", 50),
        ("too low parts", 25),
        ("too free", 10),
        ("too low needs", 2),
        ("no", 10),
        ("yes", 100),
        ("refused 21", 20),
        ("refused 55", 150),
        ("refused 32", 80),
        ("refused 53", 10),
        ("refused 54", 10),
    ];
    for (name, least) in replies {
        assert!(met.get(name).is_some_and(|&count| count >= least), "{name} of {met:?}");
    }
    for number in [11, 12, 13, 14, 15, 16, 22, 23, 31, 33, 34, 35] {
        assert!(met.contains_key(&format!("refused {number}")), "{number} of {met:?}");
    }
}

/// Each number that comes behind 55 would be that of some question if its list were 0 to k - 1; and some question with a
/// wrong list has each number that comes before 55.
#[test]
fn wrong_lists_stand_beside_every_other_number() {
    let (mut behind, mut before) = (BTreeMap::new(), BTreeMap::new());
    for (record, list) in listed().into_iter().filter(|(r, _)| r.kind == Kind::Rooted) {
        let (due, n) = (number(record), read(&record.sheet).map_or(0, |graph| graph.n));
        let vans: Vec<usize> = (0..record.k).collect();
        let is_wrong =
            list.len() != 2 * record.k || list.chunks_exact(2).any(|pair| two(pair, 0) >= n);
        if due == 55 {
            assert!(is_wrong);
            let mended = Record { vans: Some(bytes(&vans)), ..record.clone() };
            *behind.entry((question(record), number(&mended))).or_default() += 1;
        } else if is_wrong {
            *before.entry(due).or_insert(0) += 1;
        }
    }
    let rows = [(1, &[0, 22, 23][..]), (3, &[0, 23]), (5, &[0, 31, 32, 33, 34, 35])];
    for (question, numbers) in rows {
        for &number in numbers {
            let count: usize = behind.get(&(question, number)).copied().unwrap_or(0);
            assert!(count >= 12, "{number} in question {question}: {behind:?}");
        }
    }
    let numbers: Vec<u16> = before.keys().copied().collect();
    assert_eq!(numbers, [11, 12, 13, 14, 15, 16, 21, 53, 54]);
}

/// Every wrong length next to 2k and every wrong vertex in the first place and the last, alone, for each question.
#[test]
fn lists_at_the_ends_of_the_rule_are_met() {
    let met = counted(listed().into_iter().filter_map(|(record, list)| {
        let (k, n) = (record.k, read(&record.sheet).ok()?.n);
        if record.kind == Kind::Unrooted || number(record) != 55 {
            return None;
        }
        let vertices: Vec<usize> = list.chunks_exact(2).map(|pair| two(pair, 0)).collect();
        let name = match list.len() as isize - 2 * k as isize {
            _ if list.is_empty() => "no byte".to_string(),
            0 => {
                let place = vertices.iter().position(|&vertex| vertex >= n)?;
                let name = match vertices[place] {
                    vertex if vertex == n => "n",
                    65_535 => "65,535",
                    _ => "256",
                };
                format!("{name} at {}", if place == 0 { "first" } else { "last" })
            }
            more => format!("{more} bytes more"),
        };
        Some((question(record), name))
    }));
    let lengths = [-3, -2, -1, 1, 2].map(|more| format!("{more} bytes more"));
    let vertices = ["n", "65,535", "256"]
        .iter()
        .flat_map(|name| ["first", "last"].map(|place| format!("{name} at {place}")));
    for name in lengths.into_iter().chain(vertices).chain(["no byte".to_string()]) {
        for question in [1, 3, 5] {
            let count = met.get(&(question, name.clone())).copied().unwrap_or(0);
            assert!(count >= 2, "{name} in question {question}: {met:?}");
        }
    }
}

/// Lists of every kind that are answered, in each question.
#[test]
fn right_lists_of_every_kind_are_met() {
    type Is = fn(usize, &[usize]) -> bool;
    let rows: [(&str, Is, usize); 9] = [
        ("repeats", |_, vans| (0..vans.len()).any(|j| !is_first(vans, j)), 50),
        ("all at one vertex", |_, vans| vans.len() > 1 && vans.iter().all(|v| v == &vans[0]), 30),
        ("more than vertices", |n, vans| vans.len() > n, 10),
        ("no repeats", |_, vans| (0..vans.len()).all(|j| is_first(vans, j)), 20),
        ("0 to k - 1", |_, vans| vans.iter().copied().eq(0..vans.len()), 2),
        ("falling somewhere", |_, vans| vans.windows(2).any(|pair| pair[0] > pair[1]), 30),
        ("none at vertex 0", |_, vans| !vans.contains(&0), 30),
        ("at vertex 40", |_, vans| vans.contains(&40), 2),
        ("32 at vertex 255", |_, vans| *vans == [255; 32], 1),
    ];
    let answered = listed().into_iter().filter_map(|(record, list)| {
        Some((question(record), read(&record.sheet).ok()?.n, roots(record, list)?))
    });
    let answered: Vec<(usize, usize, Vec<usize>)> = answered.collect();
    for (name, is, least) in rows {
        let these = answered.iter().filter(|(_, n, vans)| is(*n, vans));
        let met = counted(these.map(|(question, _, _)| *question));
        let is_enough = [1, 3, 5].iter().all(|question| met.get(question) >= Some(&least));
        assert!(is_enough, "{name}: {met:?}");
    }
}

/// Covers printed whole in which the first of several vans at one vertex has what is left there, and the others are bare.
#[test]
fn what_is_left_is_printed_with_the_lowest_van() {
    let mut met = [0; 2];
    for (record, list) in listed() {
        let (Some(vans), Some(reply)) = (roots(record, list), own_reply(record)) else { continue };
        if opening(record) != "cover" {
            continue;
        }
        let trees = gather(&decode(&reply.front).expect("cover bytes"));
        assert!(trees.iter().map(|tree| tree.start).eq(vans.iter().copied()));
        let later: Vec<usize> = (0..vans.len()).filter(|&j| !is_first(&vans, j)).collect();
        assert!(later.iter().all(|&j| trees[j].edges.is_empty()), "{trees:?}");
        let lowest = |j: usize| vans.iter().position(|&van| van == vans[j]).expect("a van");
        let is_shown = later.iter().any(|&j| !trees[lowest(j)].edges.is_empty());
        met[usize::from(question(record) == 3)] += usize::from(is_shown);
    }
    assert!(met[0] > 25 && met[1] > 2, "{met:?}");
}

#[test]
fn the_largest_questions_bring_lists() {
    let met = counted(listed().into_iter().filter_map(|(record, list)| {
        let vans = roots(record, list)?;
        let is_spread = (0..vans.len()).all(|j| is_first(&vans, j));
        let graph = read(&record.sheet).ok()?;
        Some((question(record), graph.n, graph.edges.len(), record.k, is_spread))
    }));
    for is_spread in [true, false] {
        assert!(met[&(3, 256, 2_048, 32, is_spread)] >= 1, "{met:?}");
        for (question, least) in [(1, 4), (3, 2), (5, 2)] {
            assert!(met[&(question, 256, 255, 32, is_spread)] >= least, "{met:?}");
        }
    }
    assert!([1, 3, 5].iter().all(|&question| met[&(question, 1, 0, 32, false)] >= 1), "{met:?}");
    let full =
        |record: &Record| matches!(&record.asked, Asked::Check { cover } if cover.len() == 32_708);
    assert!(listed().iter().any(|(record, _)| full(record) && number(record) == 0));
}

/// Both lists together: answered, and refused for either.
#[test]
fn both_lists_are_brought_together() {
    let both = listed().into_iter().filter(|(record, _)| record.classes.is_some());
    let met = counted(both.map(|(record, _)| (question(record), number(record))));
    for question in [1, 3, 5] {
        for number in [0, 53, 54, 21, 55] {
            let least = if number == 0 { 8 } else { 2 };
            assert!(met.get(&(question, number)) >= Some(&least), "{number}: {met:?}");
        }
    }
}

/// An unrooted question is answered as without its list.
#[test]
fn lists_beside_an_unrooted_question_are_unread() {
    let mut met = 0;
    for (record, _) in listed().into_iter().filter(|(r, _)| r.kind == Kind::Unrooted) {
        let without = Record { vans: None, ..record.clone() };
        assert_eq!(text(std::slice::from_ref(record)), text(&[without]), "{record:?}");
        met += 1;
    }
    assert!(met > 60, "{met}");
}
