//! The graph of a question, read from and written to "sheet" bytes.

use crate::bytes::{four, put_four, put_two, two};

/// One edge ("line"): its two ends and its weight, which may be 0.
#[derive(Clone, Copy, Debug, PartialEq, Eq)]
pub struct Edge {
    pub a: usize,
    pub b: usize,
    pub weight: u64,
}

/// A graph: the vertices ("stops") are 0 to n - 1, the edges are numbered by their place.
#[derive(Clone, Debug, PartialEq, Eq)]
pub struct Graph {
    pub n: usize,
    pub edges: Vec<Edge>,
}

/// Reads a graph from sheet bytes, or refuses with 11 to 16.
pub fn read(sheet: &[u8]) -> Result<Graph, u16> {
    if sheet.len() < 4 {
        return Err(11);
    }
    let (n, m) = (two(sheet, 0), two(sheet, 2));
    if sheet.len() != 4 + 8 * m {
        return Err(11);
    }
    if n == 0 || n > 256 {
        return Err(12);
    }
    if m > 2048 {
        return Err(13);
    }
    let edges: Result<Vec<Edge>, u16> = (0..m).map(|e| read_edge(sheet, n, m, e)).collect();
    Ok(Graph { n, edges: edges? })
}

/// Reads one edge, or refuses it with 14, 15 or 16.
fn read_edge(sheet: &[u8], n: usize, m: usize, number: usize) -> Result<Edge, u16> {
    let a = two(sheet, 4 + 4 * number);
    let b = two(sheet, 4 + 4 * number + 2);
    let weight = four(sheet, 4 + 4 * m + 4 * number);
    if a >= n || b >= n {
        return Err(14);
    }
    if a == b {
        return Err(15);
    }
    if weight > 1_000_000 {
        return Err(16);
    }
    Ok(Edge { a, b, weight })
}

/// Writes sheet bytes from a vertex count and edges (end, end, weight), right or wrong alike.
pub fn sheet(n: usize, edges: &[(usize, usize, u64)]) -> Vec<u8> {
    let mut out = Vec::with_capacity(4 + 8 * edges.len());
    put_two(&mut out, n);
    put_two(&mut out, edges.len());
    for &(a, b, _) in edges {
        put_two(&mut out, a);
        put_two(&mut out, b);
    }
    for &(_, _, weight) in edges {
        put_four(&mut out, weight);
    }
    out
}

impl Graph {
    /// Makes a graph from a vertex count and edges (end, end, weight), unchecked.
    pub fn new(n: usize, edges: &[(usize, usize, u64)]) -> Graph {
        let edge = |&(a, b, weight): &(usize, usize, u64)| Edge { a, b, weight };
        Graph { n, edges: edges.iter().map(edge).collect() }
    }

    /// Writes the graph as sheet bytes.
    pub fn to_sheet(&self) -> Vec<u8> {
        let edges: Vec<_> = self.edges.iter().map(|e| (e.a, e.b, e.weight)).collect();
        sheet(self.n, &edges)
    }

    /// The weight of a set of edges.
    pub fn weight(&self, edges: &[usize]) -> u64 {
        edges.iter().map(|&e| self.edges[e].weight).sum()
    }

    /// The sum of all weights.
    pub fn total(&self) -> u64 {
        self.edges.iter().map(|e| e.weight).sum()
    }

    /// The ends of a set of edges, each once, rising.
    pub fn ends(&self, edges: &[usize]) -> Vec<usize> {
        let both = |&e: &usize| [self.edges[e].a, self.edges[e].b];
        let mut ends: Vec<usize> = edges.iter().flat_map(both).collect();
        ends.sort_unstable();
        ends.dedup();
        ends
    }

    /// For each vertex, the given edges around it with their other ends, rising by edge number.
    pub fn around(&self, edges: &[usize]) -> Vec<Vec<(usize, usize)>> {
        let mut numbers = edges.to_vec();
        numbers.sort_unstable();
        let mut around = vec![Vec::new(); self.n];
        for e in numbers {
            let Edge { a, b, .. } = self.edges[e];
            around[a].push((e, b));
            around[b].push((e, a));
        }
        around
    }
}
