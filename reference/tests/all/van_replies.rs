//! The judge on small graphs with lists of vans: it passes every reply that the rules allow, and of all sets of trees from
//! the vans exactly those; what is printed whole leaves no choice.

use std::collections::BTreeSet;

use crate::common::buffer;
use crate::common::replies::all_replies;
use crate::common::vans::{any_vans, list};
use reference::brought::Brought;
use reference::check::is_tree;
use reference::cover::{decode, encode, gather, heaviest, Tree};
use reference::fixed::is_fixed;
use reference::graph::Graph;
use reference::judge::{self, Reply};
use reference::question::{Answer, Kind};
use reference::random::Random;

/// Every tree of a graph from a root.
fn trees_from(graph: &Graph, root: usize) -> Vec<Tree> {
    let m = graph.edges.len();
    let edges = |set: usize| (0..m).filter(|e| set >> e & 1 == 1).collect();
    let trees = (0..1usize << m).map(|set| Tree::new(root, edges(set)));
    trees.filter(|tree| is_tree(graph, tree)).collect()
}

/// Every choice of one tree for each van.
fn all_choices(graph: &Graph, vans: &[usize]) -> Vec<Vec<Tree>> {
    let mut choices: Vec<Vec<Tree>> = vec![vec![]];
    for trees in vans.iter().map(|&van| trees_from(graph, van)) {
        let with = |before: &Vec<Tree>| {
            let add = |tree: &Tree| [&before[..], std::slice::from_ref(tree)].concat();
            trees.iter().map(add).collect::<Vec<_>>()
        };
        choices = choices.iter().flat_map(with).collect();
    }
    choices
}

/// A small graph that is likely to be joined, vans on it, and a limit.
fn drawn(random: &mut Random, most_edges: usize, most_vans: usize) -> (Graph, Vec<usize>, u64) {
    let n = random.between(2, 5);
    let m = random.between(n - 1, most_edges);
    let most = random.between(1, 5);
    let graph = random.any_graph(n, m, most);
    let vans = any_vans(random, n, most_vans);
    let limit = random.between(1, 2 * most) as u64;
    (graph, vans, limit)
}

#[test]
fn every_allowed_reply_is_passed_and_no_other_cover() {
    let mut random = Random::new(116);
    let before = buffer();
    let (mut yes, mut no, mut parts, mut several) = (0, 0, 0, 0);
    for _ in 0..2_500 {
        let (graph, vans, limit) = drawn(&mut random, 6, 3);
        let (sheet, bytes) = (graph.to_sheet(), list(&vans));
        let brought = Brought { vans: Some(&bytes), ..Brought::plain(&sheet) };
        let judged = |answer: &Answer, front: &[u8]| {
            let mut after = before.clone();
            after[..front.len()].copy_from_slice(front);
            let reply = Reply { answer, before: &before, after: &after };
            judge::trial_with(Kind::Rooted, brought, vans.len() as u64, limit, reply)
        };
        let replies = all_replies(&graph, &vans, limit);
        for (answer, front) in &replies {
            assert_eq!(judged(answer, front), Ok(()), "{vans:?} {limit} {graph:?}");
            if let Answer::Parts { parts: t, roots } = *answer {
                let other = Answer::Parts { parts: t, roots: roots + 1 };
                assert!(judged(&other, front).is_err());
                parts += 1;
            }
        }
        let Answer::Cover { .. } = replies[0].0 else { continue };
        let allowed: BTreeSet<Vec<u8>> = replies.into_iter().map(|(_, front)| front).collect();
        several += usize::from(allowed.len() > 1);
        for trees in all_choices(&graph, &vans) {
            let front = encode(&trees);
            let answer = Answer::Cover { limit, heaviest: heaviest(&graph, &trees) };
            let is_passed = judged(&answer, &front).is_ok();
            assert_eq!(is_passed, allowed.contains(&front), "{trees:?} {vans:?} {limit} {graph:?}");
            *(if is_passed { &mut yes } else { &mut no }) += 1;
        }
    }
    let met = [yes, no, parts, several];
    assert!(yes > 1_500 && no > 50_000 && parts > 100 && several > 300, "{met:?}");
}

#[test]
fn what_is_printed_whole_leaves_no_choice() {
    let mut random = Random::new(117);
    let (mut fixed, mut free, mut several) = ([0; 2], [0; 2], [0; 2]);
    for _ in 0..12_000 {
        let (graph, vans, limit) = drawn(&mut random, 8, 4);
        let all = all_replies(&graph, &vans, limit);
        let which = match all[0].0 {
            Answer::Cover { .. } => 0,
            Answer::Parts { .. } => 1,
            _ => continue,
        };
        let printed: BTreeSet<String> = all
            .iter()
            .map(|(answer, front)| match answer {
                Answer::Cover { .. } => {
                    format!("{answer:?} {:?}", gather(&decode(front).expect("cover bytes")))
                }
                _ => format!("{answer:?}"),
            })
            .collect();
        if is_fixed(Kind::Rooted, &graph, &vans, limit) {
            assert_eq!(printed.len(), 1, "{vans:?} {limit} {graph:?}");
            fixed[which] += 1;
        } else {
            free[which] += 1;
            several[which] += usize::from(printed.len() > 1);
        }
    }
    assert!(fixed[0] > 500 && fixed[1] > 50, "{fixed:?} {free:?} {several:?}");
    assert!(2 * several[0] > free[0] && several[1] == free[1], "{fixed:?} {free:?} {several:?}");
}
