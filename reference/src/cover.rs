//! Trees of a cover and their bytes.

use crate::bytes::{put_two, two};
use crate::graph::Graph;

/// A tree: its start vertex and its edges, rising by number.
#[derive(Clone, Debug, PartialEq, Eq, PartialOrd, Ord)]
pub struct Tree {
    pub start: usize,
    pub edges: Vec<usize>,
}

impl Tree {
    /// A tree with its edges put in order.
    pub fn new(start: usize, mut edges: Vec<usize>) -> Tree {
        edges.sort_unstable();
        Tree { start, edges }
    }

    /// The vertices it covers: its start and the ends of its edges, rising.
    pub fn vertices(&self, graph: &Graph) -> Vec<usize> {
        let mut vertices = graph.ends(&self.edges);
        vertices.push(self.start);
        vertices.sort_unstable();
        vertices.dedup();
        vertices
    }
}

/// The weight of the heaviest tree.
pub fn heaviest(graph: &Graph, trees: &[Tree]) -> u64 {
    let weights = trees.iter().map(|tree| graph.weight(&tree.edges));
    weights.max().unwrap_or(0)
}

/// Writes trees as cover bytes.
pub fn encode(trees: &[Tree]) -> Vec<u8> {
    let entries: usize = trees.iter().map(|tree| tree.edges.len()).sum();
    let mut out = Vec::with_capacity(4 + 2 * trees.len() + 4 * entries);
    put_two(&mut out, trees.len());
    put_two(&mut out, entries);
    for tree in trees {
        put_two(&mut out, tree.start);
    }
    for (number, tree) in trees.iter().enumerate() {
        tree.edges.iter().for_each(|_| put_two(&mut out, number));
    }
    for tree in trees {
        tree.edges.iter().for_each(|&e| put_two(&mut out, e));
    }
    out
}

/// Cover bytes taken apart: the starts, and the entries (tree, edge) as filed.
#[derive(Clone, Debug, PartialEq, Eq)]
pub struct Filed {
    pub starts: Vec<usize>,
    pub entries: Vec<(usize, usize)>,
}

/// Takes cover bytes apart, or refuses their length with 31.
pub fn decode(bytes: &[u8]) -> Result<Filed, u16> {
    if filed_length(bytes) != Some(bytes.len()) {
        return Err(31);
    }
    let (t, q) = (two(bytes, 0), two(bytes, 2));
    let trees_at = 4 + 2 * t;
    let edges_at = trees_at + 2 * q;
    let entry = |i: usize| (two(bytes, trees_at + 2 * i), two(bytes, edges_at + 2 * i));
    Ok(Filed {
        starts: (0..t).map(|j| two(bytes, 4 + 2 * j)).collect(),
        entries: (0..q).map(entry).collect(),
    })
}

/// The length that the first four bytes announce, if there are four.
pub fn filed_length(bytes: &[u8]) -> Option<usize> {
    (bytes.len() >= 4).then(|| 4 + 2 * two(bytes, 0) + 4 * two(bytes, 2))
}

/// Gathers the entries by tree; entries of a tree number not below t are left out.
pub fn gather(filed: &Filed) -> Vec<Tree> {
    let of_tree = |number: usize| {
        let here = filed.entries.iter().filter(move |entry| entry.0 == number);
        here.map(|entry| entry.1).collect::<Vec<usize>>()
    };
    let tree = |(number, &start): (usize, &usize)| Tree { start, edges: of_tree(number) };
    filed.starts.iter().enumerate().map(tree).collect()
}
