//! The judge on small graphs with weightless edges: of all sets of trees from the roots it passes exactly those that some
//! assignment and some shortest paths make; and some such ways by hand.

use std::collections::BTreeSet;

use crate::common::input;
use crate::common::replies::all_replies;
use reference::check::is_tree;
use reference::cover::{decode, gather, Tree};
use reference::fixed::is_fixed;
use reference::graph::{sheet, Graph};
use reference::judge::fits_some_assignment;
use reference::judge_text::{judge, Verdict};
use reference::made_gates::{ByHand, BESIDE, BEYOND, FARTHER, SHARED};
use reference::question::{Answer, Kind};
use reference::random::Random;
use reference::rooted::plan;

/// Every tree of a graph from a root.
fn trees_from(graph: &Graph, root: usize) -> Vec<Tree> {
    let m = graph.edges.len();
    let edges = |set: usize| (0..m).filter(|e| set >> e & 1 == 1).collect();
    let trees = (0..1usize << m).map(|set| Tree::new(root, edges(set)));
    trees.filter(|tree| is_tree(graph, tree)).collect()
}

/// Every choice of one tree from each of the roots 0 to k - 1.
fn all_choices(graph: &Graph, k: usize) -> Vec<Vec<Tree>> {
    let mut choices: Vec<Vec<Tree>> = vec![vec![]];
    for trees in (0..k).map(|root| trees_from(graph, root)) {
        let with = |tree: &Tree| {
            let add = |before: &Vec<Tree>| [&before[..], std::slice::from_ref(tree)].concat();
            choices.iter().map(add).collect::<Vec<_>>()
        };
        choices = trees.iter().flat_map(with).collect();
    }
    choices
}

/// The covers that the rules allow to a trial; nothing where it is too low.
fn allowed(graph: &Graph, k: usize, limit: u64) -> Option<BTreeSet<Vec<Tree>>> {
    let replies = all_replies(graph, k, limit);
    let is_cover = |answer: &Answer| matches!(answer, Answer::Cover { .. });
    let trees = |bytes: &[u8]| gather(&decode(bytes).expect("cover bytes"));
    is_cover(&replies[0].0).then(|| replies.iter().map(|(_, bytes)| trees(bytes)).collect())
}

#[test]
fn trees_pass_exactly_when_the_rules_allow_them() {
    let mut random = Random::new(47);
    let (mut yes, mut no, mut several) = (0, 0, 0);
    for _ in 0..25_000 {
        let n = random.between(3, 6);
        let (m, k) = (random.between(n - 1, 8), random.between(1, 2));
        let most = random.between(1, 2);
        let graph = random.gated_graph(n, m, most);
        let limit = random.between(1, 2 * most) as u64;
        let Ok(plan) = plan(&graph, k, limit) else { continue };
        let Some(allowed) = allowed(&graph, k, limit).filter(|_| !plan.parts.is_empty()) else {
            continue;
        };
        several += usize::from(allowed.len() > 1);
        for trees in all_choices(&graph, k) {
            let is_passed = fits_some_assignment(&graph, &plan, &trees);
            let of = (&graph, k, limit, &trees);
            assert_eq!(is_passed, allowed.contains(&trees), "{of:?}");
            *(if is_passed { &mut yes } else { &mut no }) += 1;
        }
    }
    assert!(yes > 1_000 && no > 100_000 && several > 300, "{yes} {no} {several}");
}

/// Where the reply to a trial is said to leave no choice, one cover alone is allowed; where it is not said, mostly several.
#[test]
fn covers_said_to_be_fixed_are_the_only_ones() {
    let mut random = Random::new(49);
    let (mut fixed, mut free, mut several) = (0, 0, 0);
    for _ in 0..40_000 {
        let n = random.between(3, 7);
        let (m, k) = (random.between(n - 1, 10), random.between(1, 3));
        let graph = random.gated_graph(n, m, 2);
        let limit = random.between(1, 4) as u64;
        let Some(allowed) = allowed(&graph, k, limit) else { continue };
        if is_fixed(Kind::Rooted, &graph, k, limit) {
            assert_eq!(allowed.len(), 1, "k {k} limit {limit} of {graph:?}");
            fixed += 1;
        } else {
            free += 1;
            several += usize::from(allowed.len() > 1);
        }
    }
    assert!(fixed > 1_000 && several > 1_000 && 4 * several > 3 * free, "{fixed} {free} {several}");
}

/// The name of a way, the trees printed, and whether they are right.
type Way = (&'static str, &'static str, bool);

/// Two roots, which come to their parts by weightless edges: the graph, the limit, and right and wrong ways.
const WAYS: [(ByHand, u64, &[Way]); 4] = [
    (
        SHARED,
        5,
        &[
            ("the first part for root 0", "tree 0 5 0 2\ntree 1 5 1 3\n", true),
            ("the second", "tree 0 5 0 3\ntree 1 5 1 2\n", true),
            ("no way, vertex 2 being as near", "tree 0 5 0 2\ntree 1 5 3\n", false),
            ("the way of the other", "tree 0 5 0 2\ntree 1 5 0 3\n", false),
            ("on to root 0 and back", "tree 0 5 0 2\ntree 1 5 0 1 3\n", false),
            ("on to root 1 and back", "tree 0 5 0 1 2\ntree 1 5 1 3\n", false),
        ],
    ),
    (
        FARTHER,
        5,
        &[
            ("by 6", "tree 0 6 0 1 4 5 6\ntree 1 7 2 3 4 5\n", true),
            ("by 7", "tree 0 6 0 1 4 5 6\ntree 1 7 2 3 6 7\n", true),
            ("by 6 and 7", "tree 0 6 0 1 4 5 6\ntree 1 7 2 3 4 7 8\n", true),
            ("by 7 and 6", "tree 0 6 0 1 4 5 6\ntree 1 7 2 3 5 6 8\n", true),
            ("to 7 and back, by 6", "tree 0 6 0 1 4 5 6\ntree 1 7 2 3 4 5 6\n", false),
            ("by 6, to 7 and back", "tree 0 6 0 1 4 5 6\ntree 1 7 2 3 4 5 8\n", false),
            ("by 6, then on to 7", "tree 0 6 0 1 4 5 6\ntree 1 7 2 3 4 5 7\n", false),
            ("no way", "tree 0 6 0 1 4 5 6\ntree 1 5 2\n", false),
        ],
    ),
    (
        BESIDE,
        6,
        &[
            ("straight", "tree 0 6 0 4\ntree 1 16 1 2 3 5\n", true),
            ("to 3 and back", "tree 0 6 0 1 4\ntree 1 16 1 2 3 5\n", false),
            ("the other's part", "tree 0 10 0 1 2 3\ntree 1 12 4 5\n", false),
        ],
    ),
    (
        BEYOND,
        6,
        &[
            ("to 2, or on by the part to 3", "tree 0 10 0 1 2 3\ntree 1 0\n", true),
            ("to 2, by root 1 to 3", "tree 0 10 0 1 2 3 4\ntree 1 0\n", true),
            ("to 3 and on to root 1", "tree 0 10 0 1 2 3 5\ntree 1 0\n", false),
            ("from root 1 to 2", "tree 0 0 0\ntree 1 10 1 2 3 4\n", true),
            ("from root 1 to 3", "tree 0 0 0\ntree 1 10 1 2 3 5\n", true),
            ("and on to root 0", "tree 0 0 0\ntree 1 10 0 1 2 3 4\n", false),
        ],
    ),
];

#[test]
fn ways_by_weightless_edges() {
    for ((n, edges), limit, ways) in WAYS {
        let asked = input(1, 2, limit, &sheet(n, edges));
        for (name, trees, is_right) in ways {
            let weight = |row: &str| row.split(' ').nth(2).and_then(|w| w.parse::<u64>().ok());
            let heaviest = trees.lines().filter_map(weight).max().expect("a weight");
            let said = judge(&asked, &format!("cover {limit} {heaviest} 2\n{trees}"));
            assert_eq!(said == Verdict::Yes, *is_right, "{name}: {said:?}");
        }
    }
}
