//! Unrooted ("roving") questions: what is made once, the decision at a limit, and the trees.

use crate::cover::Tree;
use crate::forest::{keep, order, Joined};
use crate::graph::Graph;
use crate::split::{split, walk, Walk};

/// What all limits share.
pub struct Unrooted<'a> {
    pub graph: &'a Graph,
    /// The whole forest's edges, by weight, then number.
    pub kept: Vec<u16>,
    /// The forest's trees from any roots: enough to weigh the components at a limit.
    walk: Walk,
    /// How many trees the whole forest has.
    pub components: usize,
    roots: Vec<u16>,
}

/// Prepares all limits.
pub fn prepare(graph: &Graph) -> Unrooted<'_> {
    let mut joined = Joined::apart(graph.n);
    let kept = keep(graph, &order(graph), u64::MAX, &mut joined, graph.n - 1);
    let roots = lowest(graph.n, joined);
    let mut numbers = kept.clone();
    numbers.sort_unstable();
    let walk = walk(graph, &numbers, roots.iter().copied());
    Unrooted { graph, walk, components: graph.n - kept.len(), kept, roots }
}

/// The lowest vertex of each component: the one that stands for it.
fn lowest(n: usize, mut joined: Joined) -> Vec<u16> {
    (0..n as u16).filter(|&v| joined.find(v) == v).collect()
}

impl Unrooted<'_> {
    /// The number of trees needed at a limit.
    pub fn needs(&self, limit: u64) -> u64 {
        if limit == 0 {
            // One for each component of the weightless edges, which come first.
            let weightless = |&&e: &&u16| self.graph.edges[e as usize].weight == 0;
            return (self.graph.n - self.kept.iter().take_while(weightless).count()) as u64;
        }
        let mut weight = [0u64; 256];
        let mut needs = 0;
        for node in &self.walk {
            let (v, p) = (node.vertex as usize, node.parent as usize);
            if u64::from(node.weight) <= limit {
                weight[p] += weight[v] + u64::from(node.weight);
            } else {
                needs += 1 + weight[v] / (2 * limit);
            }
        }
        let of_root = |&root: &u16| 1 + weight[root as usize] / (2 * limit);
        needs + self.roots.iter().map(of_root).sum::<u64>()
    }

    /// The trees at an accepted limit, by start, then by smallest edge.
    pub fn trees(&self, limit: u64) -> Vec<Tree> {
        let graph = self.graph;
        let mut joined = Joined::apart(graph.n);
        let mut kept = keep(graph, &self.kept, limit, &mut joined, self.kept.len());
        kept.sort_unstable();
        let component: Vec<u16> = (0..graph.n as u16).map(|v| joined.find(v)).collect();
        let roots: Vec<u16> = (0..graph.n as u16).filter(|&v| component[v as usize] == v).collect();
        let walk = walk(graph, &kept, roots.iter().copied());
        let (parts, mut left) = split(&walk, graph.n, 2 * limit);
        let mut trees = Vec::with_capacity(32);
        let mut has_part = [false; 256];
        for part in parts {
            has_part[component[part.start as usize] as usize] = true;
            trees.push(from_lowest(graph, part.start, part.edges));
        }
        for root in roots {
            let edges = std::mem::take(&mut left[root as usize]);
            if !edges.is_empty() || !has_part[root as usize] {
                trees.push(from_lowest(graph, root, edges));
            }
        }
        trees.sort_unstable_by_key(|tree| (tree.start, tree.edges.first().copied()));
        trees
    }
}

/// A tree started at the lowest of its vertices, of which one is given.
fn from_lowest(graph: &Graph, vertex: u16, edges: Vec<u16>) -> Tree {
    let lower = |e: &u16| graph.edges[*e as usize].a.min(graph.edges[*e as usize].b);
    let start = edges.iter().map(lower).min().map_or(vertex, |lowest| lowest.min(vertex));
    Tree::new(start, edges)
}
