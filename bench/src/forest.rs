//! The order of the edges, joined vertices and the forest.

use crate::graph::Graph;
use crate::roots::Roots;

/// The edges by weight, then number.
pub fn order(graph: &Graph) -> Vec<u16> {
    let mut keys: Vec<u64> = (0..graph.edges.len() as u16).map(|e| graph.key(e)).collect();
    keys.sort_unstable();
    keys.into_iter().map(|key| key as u16).collect()
}

/// Which vertices are joined: union-find with halved paths.
pub struct Joined(Vec<u16>);

impl Joined {
    /// No two of n vertices joined.
    pub fn apart(n: usize) -> Joined {
        Joined((0..n as u16).collect())
    }

    /// Those of n vertices that are roots ("yards") joined, and no others.
    pub fn rooted(n: usize, roots: &Roots) -> Joined {
        if let Roots::First(k) = roots {
            return Joined((0..n as u16).map(|v| if (v as usize) < *k { 0 } else { v }).collect());
        }
        let mut joined = Joined::apart(n);
        roots.vertices().for_each(|root| joined.0[root as usize] = roots.vertex(0));
        joined
    }

    /// The vertex that stands for all that are joined to this one.
    pub fn find(&mut self, vertex: u16) -> u16 {
        let parent = &mut self.0;
        let mut v = vertex;
        while parent[v as usize] != v {
            let up = parent[parent[v as usize] as usize];
            parent[v as usize] = up;
            v = up;
        }
        v
    }

    /// Joins two vertices; whether they were not yet joined.
    pub fn join(&mut self, a: u16, b: u16) -> bool {
        let (a, b) = (self.find(a), self.find(b));
        self.0[a.max(b) as usize] = a.min(b);
        a != b
    }

    /// A vertex stands for itself alone again.
    pub fn reset(&mut self, vertex: u16) {
        self.0[vertex as usize] = vertex;
    }
}

/// The edges of weight at most the limit that are kept, in order; no more than so many can be.
pub fn keep(
    graph: &Graph,
    order: &[u16],
    limit: u64,
    joined: &mut Joined,
    most: usize,
) -> Vec<u16> {
    let mut kept = Vec::with_capacity(most);
    for &e in order {
        let edge = graph.edges[e as usize];
        if kept.len() == most || u64::from(edge.weight) > limit {
            break;
        }
        if joined.join(edge.a, edge.b) {
            kept.push(e);
        }
    }
    kept
}
