//! An unrooted trial at a limit: how many trees are needed, and the trees.

use crate::cover::Tree;
use crate::forest::{tops, Forest};
use crate::graph::Graph;
use crate::question::Kind;
use crate::split::{at_limit, Split};
use crate::trial::Outcome;

/// Runs an unrooted trial at a limit.
pub fn run(graph: &Graph, k: usize, limit: u64) -> Outcome {
    let (forest, split) = at_limit(Kind::Unrooted, graph, k, limit);
    let needed = needs(graph, &forest, limit);
    carry_out(graph, k, &forest, split, needed)
}

/// The trees of parts and leftovers, unless more are needed than may be.
pub fn carry_out(graph: &Graph, k: usize, forest: &Forest, split: Split, needed: u64) -> Outcome {
    if needed > k as u64 {
        return Outcome::Needs(needed);
    }
    Outcome::Cover(trees(graph, forest, split))
}

/// The number of trees needed: for each component 1 plus its weight over twice the limit, rounded down.
pub fn needs(graph: &Graph, forest: &Forest, limit: u64) -> u64 {
    let need = |top: usize| match limit {
        0 => 1,
        _ => 1 + component_weight(graph, forest, top) / (2 * limit),
    };
    tops(forest).into_iter().map(need).sum()
}

/// The weight of the tree with this lowest vertex.
fn component_weight(graph: &Graph, forest: &Forest, top: usize) -> u64 {
    let here = |e: &&usize| forest.label[graph.edges[**e].a] == top;
    let edges: Vec<usize> = forest.kept.iter().filter(here).copied().collect();
    graph.weight(&edges)
}

/// The parts, and the leftovers that have edges or whose component has no part, in filing order.
fn trees(graph: &Graph, forest: &Forest, split: Split) -> Vec<Tree> {
    let has_part = |top: usize| split.parts.iter().any(|p| forest.label[p.start] == top);
    let stays = |left: &&Tree| !left.edges.is_empty() || !has_part(left.start);
    let left = split.left.iter().filter(stays);
    let all = split.parts.iter().chain(left);
    let mut trees: Vec<Tree> = all.map(|tree| from_lowest(graph, tree)).collect();
    trees.sort_by_key(|tree| (tree.start, tree.edges.first().copied()));
    trees
}

/// The same tree started at its lowest vertex.
fn from_lowest(graph: &Graph, tree: &Tree) -> Tree {
    let lowest = tree.vertices(graph)[0];
    Tree::new(lowest, tree.edges.clone())
}
