//! Trees, and cover bytes written to a buffer.

use crate::graph::Graph;

/// A tree: its start, and its edges rising by number.
pub struct Tree {
    pub start: u16,
    pub edges: Vec<u16>,
}

impl Tree {
    /// A tree with its edges put in order.
    pub fn new(start: u16, mut edges: Vec<u16>) -> Tree {
        edges.sort_unstable();
        Tree { start, edges }
    }

    /// The sum of its edges.
    pub fn weight(&self, graph: &Graph) -> u64 {
        self.edges.iter().map(|&e| u64::from(graph.edges[e as usize].weight)).sum()
    }
}

/// The weight of the heaviest tree.
pub fn heaviest(graph: &Graph, trees: &[Tree]) -> u64 {
    trees.iter().map(|tree| tree.weight(graph)).max().unwrap_or(0)
}

/// Writes trees to the buffer's front, which has room.
pub fn write(trees: &[Tree], buffer: &mut [u8]) {
    let entries: usize = trees.iter().map(|tree| tree.edges.len()).sum();
    let starts = trees.iter().map(|tree| tree.start);
    let numbers = trees.iter().zip(0u16..);
    let tree_numbers = numbers.flat_map(|(tree, j)| tree.edges.iter().map(move |_| j));
    let edge_numbers = trees.iter().flat_map(|tree| tree.edges.iter().copied());
    let counts = [trees.len() as u16, entries as u16].into_iter();
    let fields = counts.chain(starts).chain(tree_numbers).chain(edge_numbers);
    for (place, field) in buffer.chunks_exact_mut(2).zip(fields) {
        place.copy_from_slice(&field.to_le_bytes());
    }
}
