//! Splitting rooted trees into parts that reach a threshold, and what is left over at the roots.

use crate::cover::Tree;
use crate::forest::{self, Forest};
use crate::graph::Graph;
use crate::question::Kind;
use crate::vans::{is_first, Crews};

/// The parts in the order they were split off, and one leftover for each root, in the roots' order. Of roots at one vertex
/// the first has all that is left there, and the others have nothing.
///
/// A part starts at the vertex where it was split off, a leftover at its root; edges rise by number.
#[derive(Clone, Debug, PartialEq, Eq)]
pub struct Split {
    pub parts: Vec<Tree>,
    pub left: Vec<Tree>,
}

/// The forest of a kind at a limit, split with threshold limit if rooted, twice the limit if not.
///
/// A rooted forest is split at the roots only, an unrooted one at its lowest vertices.
pub fn at_limit(kind: Kind, graph: &Graph, crews: impl Crews, limit: u64) -> (Forest, Split) {
    let (forest, roots, threshold) = match kind {
        Kind::Rooted => (forest::rooted(graph, &crews, limit), crews.roots(), limit),
        Kind::Unrooted => {
            let forest = forest::unrooted(graph, limit);
            let tops = forest::tops(&forest);
            (forest, tops, 2 * limit)
        }
    };
    let split = split(graph, &forest.kept, &roots, threshold);
    (forest, split)
}

/// Splits the trees that the kept edges form at the roots, with a threshold; threshold 0 splits nothing.
pub fn split(graph: &Graph, kept: &[usize], roots: &[usize], threshold: u64) -> Split {
    let mut walk = Walk { graph, around: graph.around(kept), threshold, parts: Vec::new() };
    let mut left = Vec::with_capacity(roots.len());
    for (j, &root) in roots.iter().enumerate() {
        let edges = if is_first(roots, j) { walk.below(root, None) } else { Vec::new() };
        left.push(Tree::new(root, edges));
    }
    Split { parts: walk.parts, left }
}

/// One walk through rooted trees, collecting the parts.
struct Walk<'a> {
    graph: &'a Graph,
    around: Vec<Vec<(usize, usize)>>,
    threshold: u64,
    parts: Vec<Tree>,
}

impl Walk<'_> {
    /// Splits everything below a vertex, children by edge number, and returns the edges left at it.
    fn below(&mut self, vertex: usize, edge_above: Option<usize>) -> Vec<usize> {
        let mut bunch = Vec::new();
        for (edge, child) in self.around[vertex].clone() {
            if Some(edge) == edge_above {
                continue;
            }
            let mut branch = self.below(child, Some(edge));
            branch.push(edge);
            if self.is_enough(&branch) {
                self.parts.push(Tree::new(vertex, branch));
                continue;
            }
            bunch.append(&mut branch);
            if self.is_enough(&bunch) {
                self.parts.push(Tree::new(vertex, std::mem::take(&mut bunch)));
            }
        }
        bunch
    }

    /// Whether edges reach the threshold.
    fn is_enough(&self, edges: &[usize]) -> bool {
        self.threshold > 0 && self.graph.weight(edges) >= self.threshold
    }
}
