//! The closed walk of one tree of a cover.

use crate::brought::Brought;
use crate::bytes::put_two;
use crate::check::check_with;
use crate::cover::{decode, gather, Tree};
use crate::graph::Graph;
use crate::question::Kind;

/// The least length of the buffer lent for a walk, in bytes: 511 stops of two bytes.
pub const WALK_BUFFER: usize = 1_022;

/// A walk: the vertices it comes to, its start first, and the edges it crosses between them.
#[derive(Clone, Debug, PartialEq, Eq)]
pub struct Walk {
    pub stops: Vec<usize>,
    pub crossings: Vec<usize>,
}

impl Walk {
    /// The sum of the weights of its crossings.
    pub fn length(&self, graph: &Graph) -> u64 {
        graph.weight(&self.crossings)
    }
}

/// The closed walk of a tree.
///
/// At every vertex the lowest edge of the tree not yet walked goes first. Where none is left, the edge by which the vertex
/// was first reached is walked back. The start was reached by none: where none is left there, the walk ends.
pub fn closed_walk(graph: &Graph, tree: &Tree) -> Walk {
    let around = graph.around(&tree.edges);
    let mut walked = vec![false; graph.edges.len()];
    let mut reached_by = vec![None; graph.n];
    let mut walk = Walk { stops: vec![tree.start], crossings: Vec::new() };
    let mut here = tree.start;
    loop {
        let lowest = around[here].iter().find(|(edge, _)| !walked[*edge]);
        if let Some(&(edge, other)) = lowest {
            reached_by[other] = Some((edge, here));
        }
        let Some((edge, next)) = lowest.copied().or(reached_by[here]) else {
            return walk;
        };
        walked[edge] = true;
        walk.crossings.push(edge);
        walk.stops.push(next);
        here = next;
    }
}

/// Writes the closed walk of one tree of a filed cover without lists.
pub fn walk(
    kind: Kind,
    sheet: &[u8],
    k: u64,
    cover: &[u8],
    tree: usize,
    buffer: &mut [u8],
) -> Result<(usize, u64), u16> {
    walk_with(kind, Brought::plain(sheet), k, cover, tree, buffer)
}

/// Writes the closed walk of one tree of a filed cover over the first bytes of the buffer, two bytes a stop, and gives
/// its count of stops and its length; or the number of the check, 51 or 52, and nothing is written.
pub fn walk_with(
    kind: Kind,
    brought: Brought,
    k: u64,
    cover: &[u8],
    tree: usize,
    buffer: &mut [u8],
) -> Result<(usize, u64), u16> {
    check_with(kind, brought, k, cover)?;
    let (graph, trees) = (brought.graph()?, gather(&decode(cover)?));
    let tree = trees.get(tree).ok_or(51u16)?;
    if buffer.len() < WALK_BUFFER {
        return Err(52);
    }
    let walk = closed_walk(&graph, tree);
    let mut bytes = Vec::new();
    walk.stops.iter().for_each(|&stop| put_two(&mut bytes, stop));
    buffer[..bytes.len()].copy_from_slice(&bytes);
    Ok((walk.stops.len(), walk.length(&graph)))
}
