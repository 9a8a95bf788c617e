//! The judge says yes to every allowed reply and no to every other: all choices tried one by one.

use crate::common::replies::{all_replies, Written};
use crate::common::{buffer, input, sheet_n};
use reference::cover::{decode, encode, gather, heaviest, Tree};
use reference::graph::Graph;
use reference::judge::{self, Reply};
use reference::judge_text::{self, Verdict};
use reference::question::{Answer, Kind};
use reference::random::Random;
use reference::rounds::text;
use reference::trial::trial;

/// A rooted trial on a small graph with many ties.
struct Asked {
    graph: Graph,
    k: usize,
    limit: u64,
}

/// Small rooted trials with every reply allowed to each.
fn small_trials(seed: u64, count: usize) -> Vec<(Asked, Vec<Written>)> {
    let mut random = Random::new(seed);
    let mut trials = Vec::new();
    for _ in 0..count {
        let n = random.between(2, 6);
        let (m, most) = (random.between(1, 8), random.between(1, 4));
        let graph = random.any_graph(n, m, most);
        let k = random.between(1, n.min(3));
        let limit = random.between(1, 2 * most) as u64;
        let replies = all_replies(&graph, k, limit);
        trials.push((Asked { graph, k, limit }, replies));
    }
    trials
}

/// The judge's word on an answer with its written bytes, the rest of the buffer untouched.
fn judged(asked: &Asked, answer: &Answer, bytes: &[u8]) -> bool {
    let before = buffer();
    let mut after = before.clone();
    after[..bytes.len()].copy_from_slice(bytes);
    let reply = Reply { answer, before: &before, after: &after };
    let sheet = asked.graph.to_sheet();
    judge::trial(Kind::Rooted, &sheet, asked.k as u64, asked.limit, reply).is_ok()
}

/// The trees in written bytes.
fn trees_in(bytes: &[u8]) -> Vec<Tree> {
    gather(&decode(bytes).expect("cover bytes"))
}

/// Trees damaged in every simple way: an edge dropped, added or moved, a start moved, trees swapped.
fn damaged(graph: &Graph, trees: &[Tree]) -> Vec<Vec<Tree>> {
    let mut all = Vec::new();
    for j in 0..trees.len() {
        let mut with = |tree: Tree| {
            let mut copy = trees.to_vec();
            copy[j] = tree;
            all.push(copy);
        };
        let Tree { start, edges } = &trees[j];
        with(Tree { start: (start + 1) % graph.n, edges: edges.clone() });
        for e in 0..graph.edges.len() {
            let others: Vec<usize> = edges.iter().copied().filter(|&x| x != e).collect();
            let toggled = if edges.contains(&e) { others } else { [&others[..], &[e]].concat() };
            with(Tree::new(*start, toggled));
        }
        let mut falling = edges.clone();
        falling.reverse();
        with(Tree { start: *start, edges: falling });
    }
    for j in 1..trees.len() {
        let mut swapped = trees.to_vec();
        swapped.swap(j - 1, j);
        all.push(swapped.clone());
        (swapped[j - 1].start, swapped[j].start) = (trees[j - 1].start, trees[j].start);
        all.push(swapped);
    }
    (0..trees.len()).for_each(|j| all.push([&trees[..j], &trees[j + 1..]].concat()));
    all
}

/// Answers near an answer: its own, those with a number moved, and those that fit the trees.
fn near_answers(graph: &Graph, answer: &Answer, trees: &[Tree]) -> Vec<Answer> {
    match *answer {
        Answer::Cover { limit, heaviest: weight } => {
            let numbers = [(0, weight), (0, weight + 1), (1, weight), (0, heaviest(graph, trees))];
            let cover = |(more, heaviest)| Answer::Cover { limit: limit + more, heaviest };
            numbers.into_iter().map(cover).collect()
        }
        Answer::Parts { parts, roots } => {
            let t = trees.len();
            let numbers = [(parts, roots), (parts + 1, roots), (parts, roots + 1), (t, roots)];
            let less = [(t, roots.saturating_sub(1)), (t, t.saturating_sub(1)), (t, t)];
            let parts = |(parts, roots)| Answer::Parts { parts, roots };
            numbers.into_iter().chain(less).map(parts).collect()
        }
        _ => vec![answer.clone()],
    }
}

#[test]
fn replies_pass_exactly_when_the_rules_allow_them() {
    let (mut yes, mut no, mut several) = ([0, 0], [0, 0], 0);
    for (asked, replies) in small_trials(31, 4_000) {
        several += usize::from(replies.len() > 1);
        for (answer, bytes) in replies.iter().take(12) {
            if bytes.is_empty() {
                assert!(judged(&asked, answer, bytes));
                continue;
            }
            let side = usize::from(matches!(answer, Answer::Parts { .. }));
            let trees = trees_in(bytes);
            for damage in [vec![trees.clone()], damaged(&asked.graph, &trees)].concat() {
                for answer in near_answers(&asked.graph, answer, &damage) {
                    let bytes = encode(&damage);
                    let word = judged(&asked, &answer, &bytes);
                    let allowed = replies.contains(&(answer.clone(), bytes));
                    let of = (&asked.graph, asked.k, asked.limit, &damage);
                    assert_eq!(word, allowed, "{answer:?} {of:?}");
                    *(if word { &mut yes } else { &mut no })[side..].first_mut().unwrap() += 1;
                }
            }
        }
    }
    assert!(several > 300, "{several} trials with a choice");
    assert!(yes.iter().chain(&no).all(|&count| count > 500), "{yes:?} {no:?}");
}

/// The same answer under another limit.
fn at_limit(answer: &Answer, limit: u64) -> Answer {
    match *answer {
        Answer::Cover { heaviest, .. } => Answer::Cover { limit, heaviest },
        _ => answer.clone(),
    }
}

#[test]
fn replies_to_another_limit_pass_exactly_when_the_rules_allow_them() {
    let (mut yes, mut no) = (0, 0);
    for (asked, replies) in small_trials(35, 2000) {
        for other in [asked.limit - 1, asked.limit + 1, 2 * asked.limit] {
            for (answer, bytes) in all_replies(&asked.graph, asked.k, other).iter().take(12) {
                let answer = at_limit(answer, asked.limit);
                let word = judged(&asked, &answer, bytes);
                let allowed = replies.contains(&(answer.clone(), bytes.clone()));
                let of = (&asked.graph, asked.k, asked.limit, other);
                assert_eq!(word, allowed, "{answer:?} {of:?}");
                *(if word { &mut yes } else { &mut no }) += 1;
            }
        }
    }
    assert!(yes > 1000 && no > 1000, "{yes} {no}");
}

#[test]
fn our_own_reply_is_one_of_those_allowed() {
    for (asked, replies) in small_trials(32, 3000) {
        let mut lent = buffer();
        let sheet = asked.graph.to_sheet();
        let answer = trial(Kind::Rooted, &sheet, asked.k as u64, asked.limit, &mut lent);
        let matches = |(due, bytes): &Written| *due == answer && lent.starts_with(bytes);
        assert!(replies.iter().any(matches), "{:?} k {}", asked.graph, asked.k);
    }
}

#[test]
fn another_kind_of_answer_is_never_allowed() {
    let others = [
        Answer::Stop(2),
        Answer::Stop(1),
        Answer::Needs(2),
        Answer::NoCover,
        Answer::Refused(21),
        Answer::Parts { parts: 1, roots: 0 },
        Answer::Cover { limit: 3, heaviest: 0 },
    ];
    let mut said_no = 0;
    for (asked, replies) in small_trials(33, 300) {
        for (answer, bytes) in &replies {
            for other in others.iter().filter(|other| *other != answer) {
                let allowed = replies.contains(&(other.clone(), bytes.clone()));
                assert_eq!(judged(&asked, other, bytes), allowed, "{other:?}");
                said_no += usize::from(!allowed);
            }
        }
    }
    assert!(said_no > 1000);
}

#[test]
fn a_touched_byte_or_another_length_is_never_allowed() {
    let sheet = sheet_n();
    let before = buffer();
    for (kind, k, limit) in [(Kind::Rooted, 2, 3), (Kind::Rooted, 2, 4), (Kind::Unrooted, 3, 3)] {
        let mut after = before.clone();
        let answer = trial(kind, &sheet, k, limit, &mut after);
        let word = |after: &[u8]| {
            let reply = Reply { answer: &answer, before: &before, after };
            judge::trial(kind, &sheet, k, limit, reply).is_ok()
        };
        assert!(word(&after));
        for place in [0, 1, 2, 3, 4, 8, 15, 16, 20, 100, after.len() - 1] {
            let mut touched = after.clone();
            touched[place] ^= 1;
            assert!(!word(&touched), "{kind:?} limit {limit} byte {place}");
        }
        assert!(!word(&after[..after.len() - 1]));
        assert!(!word(&before));
    }
}

#[test]
fn refusals_are_judged_exactly() {
    let lent = vec![1; 9];
    let rows = [(0, 0, 21), (2, 2_048_000_001, 22), (2, 1, 23)];
    for (k, limit, number) in rows {
        for reply_number in 20..25 {
            let answer = Answer::Refused(reply_number);
            let reply = Reply { answer: &answer, before: &lent, after: &lent };
            let word = judge::trial(Kind::Unrooted, &sheet_n(), k, limit, reply).is_ok();
            assert_eq!(word, reply_number == number);
            let touched = vec![2; 9];
            let reply = Reply { answer: &answer, before: &lent, after: &touched };
            assert!(judge::trial(Kind::Unrooted, &sheet_n(), k, limit, reply).is_err());
        }
    }
}

#[test]
fn best_limits_are_judged_by_limit_and_cover() {
    // The edges of both trees, the limit and heaviest weight named, and whether that is right.
    type Row = (&'static [usize], &'static [usize], u64, u64, bool);
    let rows: [Row; 6] = [
        (&[0, 1], &[], 4, 6, true),
        (&[0, 1], &[], 5, 6, false),
        (&[0, 1], &[], 4, 7, false),
        (&[0], &[2], 4, 5, false),
        (&[0], &[2], 5, 5, false),
        (&[], &[0, 1, 2], 5, 11, false),
    ];
    let before = buffer();
    for (first, second, limit, heaviest, right) in rows {
        let bytes = encode(&[Tree::new(0, first.to_vec()), Tree::new(1, second.to_vec())]);
        let mut after = before.clone();
        after[..bytes.len()].copy_from_slice(&bytes);
        let answer = Answer::Cover { limit, heaviest };
        let reply = Reply { answer: &answer, before: &before, after: &after };
        let word = judge::best(Kind::Rooted, &sheet_n(), 2, reply).is_ok();
        assert_eq!(word, right, "{first:?} {second:?} limit {limit}");
    }
}

/// The printed text of a reply.
fn printed(graph: &Graph, (answer, bytes): &Written) -> String {
    match answer {
        Answer::Cover { .. } => text(answer, Some((graph, &trees_in(bytes)))),
        _ => text(answer, None),
    }
}

/// A text with each character changed in turn, and with its ends cut or grown.
fn near_texts(due: &str) -> Vec<String> {
    let change = |i: usize| {
        let mut bytes = due.as_bytes().to_vec();
        bytes[i] = if bytes[i] == b'1' { b'0' } else { b'1' };
        String::from_utf8(bytes).expect("plain text")
    };
    let ends = [due[..due.len() - 1].to_string(), format!("{due}\n"), due.replace(' ', "  ")];
    (0..due.len()).map(change).chain(ends).collect()
}

#[test]
fn texts_pass_exactly_when_the_rules_allow_them() {
    let (mut yes, mut no) = (0, 0);
    for (asked, replies) in small_trials(34, 1000) {
        let bytes = input(1, asked.k, asked.limit, &asked.graph.to_sheet());
        let texts: Vec<String> = replies.iter().map(|r| printed(&asked.graph, r)).collect();
        for due in texts.iter().take(5) {
            for near in [vec![due.clone()], near_texts(due)].concat() {
                let word = judge_text::judge(&bytes, &near) == Verdict::Yes;
                assert_eq!(word, texts.contains(&near), "{near:?} for {:?}", asked.graph);
                *(if word { &mut yes } else { &mut no }) += 1;
            }
        }
    }
    assert!(yes > 1000 && no > 1000, "{yes} {no}");
}
