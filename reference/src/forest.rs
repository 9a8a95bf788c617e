//! The forest at a limit: edges taken by weight, then number, and kept if their ends are not yet joined.

use crate::graph::Graph;
use crate::vans::Crews;

/// A forest: its kept edges, rising by number, and for each vertex the lowest vertex of its tree.
#[derive(Clone, Debug, PartialEq, Eq)]
pub struct Forest {
    pub kept: Vec<usize>,
    pub label: Vec<usize>,
}

/// The given edges by weight, then number.
pub fn by_weight(graph: &Graph, edges: &[usize]) -> Vec<usize> {
    let mut order = edges.to_vec();
    order.sort_unstable_by_key(|&e| (graph.edges[e].weight, e));
    order
}

/// The edges not heavier than a limit, rising by number.
pub fn within(graph: &Graph, limit: u64) -> Vec<usize> {
    let light = |&e: &usize| graph.edges[e].weight <= limit;
    (0..graph.edges.len()).filter(light).collect()
}

/// The forest at a limit with the roots counted as joined from the start.
pub fn rooted(graph: &Graph, crews: impl Crews, limit: u64) -> Forest {
    grow(graph, &within(graph, limit), &crews.roots())
}

/// The forest at a limit without roots.
pub fn unrooted(graph: &Graph, limit: u64) -> Forest {
    grow(graph, &within(graph, limit), &[])
}

/// The edges of a set that are kept when nothing is joined at first.
pub fn thin(graph: &Graph, edges: &[usize]) -> Vec<usize> {
    grow(graph, edges, &[]).kept
}

/// For each vertex, the lowest vertex that edges of a set join it to.
pub fn sides(graph: &Graph, edges: &[usize]) -> Vec<usize> {
    grow(graph, edges, &[]).label
}

/// Takes the given edges in order and keeps each that joins two sides, the roots being one side.
fn grow(graph: &Graph, edges: &[usize], roots: &[usize]) -> Forest {
    let mut label: Vec<usize> = (0..graph.n).collect();
    let mut side: Vec<usize> = label.clone();
    roots.iter().for_each(|&root| side[root] = roots[0]);
    let mut kept = Vec::new();
    for e in by_weight(graph, edges) {
        let edge = graph.edges[e];
        if side[edge.a] != side[edge.b] {
            join(&mut side, edge.a, edge.b);
            join(&mut label, edge.a, edge.b);
            kept.push(e);
        }
    }
    kept.sort_unstable();
    Forest { kept, label }
}

/// Gives the groups of two vertices the lower of their two labels.
fn join(label: &mut [usize], a: usize, b: usize) {
    let low = label[a].min(label[b]);
    let high = label[a].max(label[b]);
    for mark in label.iter_mut().filter(|mark| **mark == high) {
        *mark = low;
    }
}

/// The lowest vertex joined to none of the roots.
pub fn lowest_unjoined(forest: &Forest, crews: impl Crews) -> Option<usize> {
    let joined: Vec<usize> = crews.roots().iter().map(|&root| forest.label[root]).collect();
    (0..forest.label.len()).find(|&v| !joined.contains(&forest.label[v]))
}

/// The lowest vertex of each tree, rising.
pub fn tops(forest: &Forest) -> Vec<usize> {
    let is_top = |&v: &usize| forest.label[v] == v;
    (0..forest.label.len()).filter(is_top).collect()
}

/// The vertices of each tree, rising, the trees ordered by their lowest vertex.
pub fn components(forest: &Forest) -> Vec<Vec<usize>> {
    let members = |top: usize| {
        let here = |&v: &usize| forest.label[v] == top;
        (0..forest.label.len()).filter(here).collect()
    };
    tops(forest).into_iter().map(members).collect()
}
