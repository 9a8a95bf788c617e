//! Whether a filed tree is what the rules make of a part and some shortest path to it.
//!
//! Thinning by weight, then number, leaves the minimum spanning tree of a union, and there is only
//! one. So a tree is the thinned union exactly when the union holds all its edges, and every other
//! edge of the union closes a loop in the tree on which that edge comes last. Both can be asked of
//! each edge by itself. What is left to ask is whether a shortest path by edges that fit holds those
//! edges of the tree that neither the part nor the leftover has.

use crate::cover::Tree;
use crate::distance::closest;
use crate::forest::thin;
use crate::graph::Graph;
use crate::judge_path::Paths;

/// A filed tree of a root, with what is needed to compare it with unions.
pub struct FiledTree<'a> {
    graph: &'a Graph,
    /// The distances from its root.
    distance: &'a [Option<u64>],
    tree: &'a Tree,
    /// The edges that a union with this thinned tree may hold, rising.
    fitting: Vec<usize>,
}

impl<'a> FiledTree<'a> {
    /// Prepares a filed tree, which must be a tree by the rules.
    pub fn new(graph: &'a Graph, distance: &'a [Option<u64>], tree: &'a Tree) -> FiledTree<'a> {
        let above = edges_above(graph, tree);
        let fits = |&e: &usize| tree.edges.contains(&e) || comes_last(graph, &above, e);
        let fitting = (0..graph.edges.len()).filter(fits).collect();
        FiledTree { graph, distance, tree, fitting }
    }

    /// Whether the tree is the thinned union of a part, some shortest path to it and a leftover.
    pub fn has_part(&self, part: &Tree, left: &Tree) -> bool {
        let held = [&part.edges[..], &left.edges[..]].concat();
        if !held.iter().all(|e| self.fitting.binary_search(e).is_ok()) {
            return false;
        }
        let ends = self.graph.ends(&part.edges);
        let Some((nearest, _)) = closest(self.distance, &ends) else {
            return false;
        };
        let wanted: Vec<usize> =
            self.tree.edges.iter().copied().filter(|e| !held.contains(e)).collect();
        let (graph, root) = (self.graph, self.tree.start);
        let mut paths = Paths::new(graph, root, self.distance, &self.fitting, &wanted);
        ends.iter().any(|&v| self.distance[v] == Some(nearest) && paths.lead_to(v))
    }

    /// Whether the tree is a thinned leftover alone.
    pub fn has_no_part(&self, left: &Tree) -> bool {
        thin(self.graph, &left.edges) == self.tree.edges
    }
}

/// For each covered vertex but the start, the tree edge and the vertex above it; the start has itself.
type Above = Vec<Option<(Option<usize>, usize)>>;

/// Walks a tree from its start and notes what is above each vertex.
fn edges_above(graph: &Graph, tree: &Tree) -> Above {
    let around = graph.around(&tree.edges);
    let mut above: Above = vec![None; graph.n];
    above[tree.start] = Some((None, tree.start));
    let mut open = vec![tree.start];
    while let Some(vertex) = open.pop() {
        for &(edge, other) in &around[vertex] {
            if above[other].is_none() {
                above[other] = Some((Some(edge), vertex));
                open.push(other);
            }
        }
    }
    above
}

/// The tree edges from a vertex up to the start, or nothing if the tree does not cover it.
fn climb(above: &Above, from: usize) -> Option<Vec<usize>> {
    let mut edges = Vec::new();
    let mut vertex = from;
    loop {
        match above[vertex]? {
            (None, _) => return Some(edges),
            (Some(edge), next) => {
                edges.push(edge);
                vertex = next;
            }
        }
    }
}

/// Whether an edge closes a loop in the tree and comes last on it by weight, then number.
fn comes_last(graph: &Graph, above: &Above, e: usize) -> bool {
    let edge = graph.edges[e];
    let (Some(mut one), Some(mut other)) = (climb(above, edge.a), climb(above, edge.b)) else {
        return false;
    };
    while !one.is_empty() && one.last() == other.last() {
        one.pop();
        other.pop();
    }
    let place = |x: usize| (graph.edges[x].weight, x);
    one.iter().chain(&other).all(|&x| place(x) < place(e))
}
