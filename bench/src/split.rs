//! Rooted trees walked once, and split at a threshold in one pass over the walk.

use crate::graph::{Around, Graph};

/// A vertex below another: its parent, the edge between them and that edge's weight.
#[derive(Clone, Copy)]
pub struct Node {
    pub vertex: u16,
    pub parent: u16,
    pub edge: u16,
    pub weight: u32,
}

/// All vertices but the roots, each behind those below it, the children of a vertex by edge number.
pub type Walk = Vec<Node>;

/// Walks the trees that some edges (rising) form at the roots.
pub fn walk(graph: &Graph, kept: &[u16], roots: impl Iterator<Item = u16>) -> Walk {
    let around = Around::new(graph, kept.iter().copied());
    let mut nodes = Vec::with_capacity(kept.len());
    // What is still to be entered; each vertex is followed by its children's branches from the last child back, so that
    // the whole list reversed is a walk with each vertex behind its children and those in order.
    let mut open: Vec<Node> = Vec::new();
    for root in roots {
        let begin = nodes.len();
        push_children(&around, root, None, &mut open);
        while let Some(node) = open.pop() {
            nodes.push(node);
            push_children(&around, node.vertex, Some(node.edge), &mut open);
        }
        nodes[begin..].reverse();
    }
    nodes
}

/// Lays the children of a vertex on the stack by edge number, so that the last is taken first.
fn push_children(around: &Around, vertex: u16, above: Option<u16>, open: &mut Vec<Node>) {
    for arc in around.of(vertex) {
        if Some(arc.edge) != above {
            open.push(Node { vertex: arc.to, parent: vertex, edge: arc.edge, weight: arc.weight });
        }
    }
}

/// Whether the walk splits into at most so many parts at a threshold above 0.
pub fn splits_into(walk: &Walk, n: usize, threshold: u64, most: usize) -> bool {
    let mut left = [0u64; 256];
    left[..n].fill(0);
    let mut parts = 0;
    for node in walk {
        let branch = left[node.vertex as usize] + u64::from(node.weight);
        let bunch = left[node.parent as usize] + branch;
        if branch >= threshold {
            parts += 1;
        } else if bunch >= threshold {
            parts += 1;
            left[node.parent as usize] = 0;
        } else {
            left[node.parent as usize] = bunch;
        }
    }
    parts <= most
}

/// The trees whose roots are near each part, as bits, given those near each vertex; at a threshold above 0.
pub fn near_parts(walk: &Walk, threshold: u64, near: &[u32; 256], parts: &mut Vec<u32>) {
    parts.clear();
    let mut left = [(0u64, 0u32); 256];
    for node in walk {
        let (v, p) = (node.vertex as usize, node.parent as usize);
        let branch = left[v].0 + u64::from(node.weight);
        let bits = left[v].1 | near[v] | near[p];
        let bunch = (left[p].0 + branch, left[p].1 | bits);
        if branch >= threshold {
            parts.push(bits);
        } else if bunch.0 >= threshold {
            parts.push(bunch.1);
            left[p] = (0, 0);
        } else {
            left[p] = bunch;
        }
    }
}

/// A piece of a tree: where it was split off, or its root, and its edges in no order.
pub struct Piece {
    pub start: u16,
    pub edges: Vec<u16>,
}

/// The parts in the order they are split off, and for each vertex the edges left at it: for a root, its leftover.
pub fn split(walk: &Walk, n: usize, threshold: u64) -> (Vec<Piece>, Vec<Vec<u16>>) {
    let mut left = vec![(0u64, Vec::new()); n];
    let mut parts = Vec::new();
    for node in walk {
        let (v, p) = (node.vertex as usize, node.parent as usize);
        let (below, mut edges) = std::mem::take(&mut left[v]);
        let branch = below + u64::from(node.weight);
        edges.push(node.edge);
        if threshold > 0 && branch >= threshold {
            parts.push(Piece { start: node.parent, edges });
            continue;
        }
        let bunch = &mut left[p];
        bunch.0 += branch;
        if bunch.1.len() < edges.len() {
            std::mem::swap(&mut bunch.1, &mut edges);
        }
        bunch.1.append(&mut edges);
        if threshold > 0 && bunch.0 >= threshold {
            let (_, edges) = std::mem::take(bunch);
            parts.push(Piece { start: node.parent, edges });
        }
    }
    (parts, left.into_iter().map(|(_, edges)| edges).collect())
}
