//! Graphs of the largest size: covers within four times the limit, judged, and damage found.

use crate::common::{buffer, BOTH};
use reference::best::best;
use reference::check::check;
use reference::cover::{decode, encode, filed_length, gather, heaviest};
use reference::graph::Graph;
use reference::judge::{self, Reply};
use reference::question::{Answer, Kind};
use reference::random::Random;
use reference::trial::trial;

/// A connected graph: every vertex is joined to a lower one near it, and more edges are added.
fn connected(random: &mut Random, m: usize, near: usize, (least, most): (usize, usize)) -> Graph {
    let n = 256;
    let weight = |random: &mut Random| random.between(least, most) as u64;
    let mut edges: Vec<(usize, usize, u64)> =
        (1..n).map(|v| (v - 1 - random.below(v.min(near)), v, weight(random))).collect();
    while edges.len() < m {
        let a = random.below(n);
        edges.push((a, (a + 1 + random.below(n - 1)) % n, weight(random)));
    }
    Graph::new(n, &edges)
}

/// Long and short graphs of 256 vertices with few and many edges, none of them weightless, or some.
fn large_graphs() -> Vec<Graph> {
    let mut random = Random::new(51);
    let shapes = [
        (255, 1, (1, 9)),
        (255, 256, (1, 1_000_000)),
        (600, 4, (1, 50)),
        (2048, 30, (1, 1_000_000)),
        (255, 1, (0, 3)),
        (600, 4, (0, 2)),
        (2048, 3, (0, 9)),
    ];
    shapes.map(|(m, near, weights)| connected(&mut random, m, near, weights)).to_vec()
}

/// Judges an answer, checks its cover and gives the heaviest weight if there is one.
fn look(kind: Kind, sheet: &[u8], k: u64, limit: Option<u64>) -> Option<u64> {
    let before = buffer();
    let mut after = before.clone();
    let answer = match limit {
        Some(limit) => trial(kind, sheet, k, limit, &mut after),
        None => best(kind, sheet, k, &mut after),
    };
    let reply = Reply { answer: &answer, before: &before, after: &after };
    let word = match limit {
        Some(limit) => judge::trial(kind, sheet, k, limit, reply),
        None => judge::best(kind, sheet, k, reply),
    };
    assert_eq!(word, Ok(()), "{kind:?} k {k} limit {limit:?}");
    let Answer::Cover { limit, heaviest } = answer else { return None };
    let length = filed_length(&after).expect("four bytes");
    assert_eq!(check(kind, sheet, k, &after[..length]), Ok(heaviest));
    assert!(heaviest <= 4 * limit);
    Some(heaviest)
}

#[test]
fn large_questions_are_answered_and_judged() {
    for graph in large_graphs() {
        let sheet = graph.to_sheet();
        for kind in BOTH {
            for k in [1, 7, 32] {
                assert!(look(kind, &sheet, k, None).is_some());
                let mean = graph.total() / graph.edges.len() as u64;
                for limit in [0, mean, 2 * mean, 10 * mean, graph.total()] {
                    look(kind, &sheet, k, Some(limit));
                }
            }
        }
    }
}

#[test]
fn damage_to_large_rooted_covers_is_found() {
    let mut found = 0;
    for graph in large_graphs() {
        let sheet = graph.to_sheet();
        let before = buffer();
        let mut after = before.clone();
        let answer = best(Kind::Rooted, &sheet, 32, &mut after);
        let Answer::Cover { limit, .. } = answer else { panic!("{answer:?}") };
        let length = filed_length(&after).expect("four bytes");
        let trees = gather(&decode(&after[..length]).expect("a cover"));
        for j in 0..trees.len() {
            let mut fewer = trees.clone();
            if fewer[j].edges.pop().is_none() {
                continue;
            }
            let bytes = encode(&fewer);
            let mut damaged = before.clone();
            damaged[..bytes.len()].copy_from_slice(&bytes);
            let answer = Answer::Cover { limit, heaviest: heaviest(&graph, &fewer) };
            let reply = Reply { answer: &answer, before: &before, after: &damaged };
            assert!(judge::trial(Kind::Rooted, &sheet, 32, limit, reply).is_err());
            found += 1;
        }
    }
    assert!(found > 60, "{found}");
}
