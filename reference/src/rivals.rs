//! Anybody's closed walks that together come to every vertex: the least length that their longest can have, by looking at
//! all of them; for small graphs only.
//!
//! Such a walk need not be that of a tree: it may cross any edge any number of times, or none at all, and then comes to the
//! vertex where it stands.

use std::cmp::Reverse;
use std::collections::{BTreeMap, BinaryHeap};

use crate::graph::Graph;
use crate::optimum::{least_heaviest, Shape};
use crate::question::Kind;
use crate::vans::Crews;

/// The closed walks from a start: each set of vertices that one of them comes to, as bits, with the least length of those
/// that come to just this set.
///
/// Found by a search for shortest ways among pairs of the vertex where a walk stands and the set it has come to.
pub fn closed_walks(graph: &Graph, start: usize) -> Vec<Shape> {
    let all: Vec<usize> = (0..graph.edges.len()).collect();
    let around = graph.around(&all);
    let mut least = BTreeMap::new();
    let mut open = BinaryHeap::from([Reverse((0, start, 1usize << start))]);
    while let Some(Reverse((length, here, set))) = open.pop() {
        if least.contains_key(&(here, set)) {
            continue;
        }
        least.insert((here, set), length);
        for &(edge, next) in &around[here] {
            open.push(Reverse((length + graph.edges[edge].weight, next, set | 1 << next)));
        }
    }
    let closed = least.into_iter().filter(|((here, _), _)| *here == start);
    closed.map(|((_, set), length)| (set, length)).collect()
}

/// The least length that the longest of such walks can have: one walk from each of the roots, or, without roots, at
/// most as many walks from anywhere. Nothing where there are none.
pub fn least_longest(kind: Kind, graph: &Graph, crews: impl Crews) -> Option<u64> {
    let roots = crews.roots();
    let from: Vec<Vec<Shape>> = (0..graph.n).map(|start| closed_walks(graph, start)).collect();
    least_heaviest(kind, graph.n, roots.len(), |j| match kind {
        Kind::Rooted => from[roots[j]].clone(),
        Kind::Unrooted => from.concat(),
    })
}
