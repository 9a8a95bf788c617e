//! A small repeatable source of numbers and of graphs for tests.

use crate::graph::{Edge, Graph};

/// A source that gives the same numbers for the same seed.
pub struct Random(u64);

impl Random {
    /// A source with a seed.
    pub fn new(seed: u64) -> Random {
        Random(seed)
    }

    /// The next number: a counter, well stirred.
    pub fn next_number(&mut self) -> u64 {
        self.0 = self.0.wrapping_add(0x9e37_79b9_7f4a_7c15);
        let a = (self.0 ^ (self.0 >> 30)).wrapping_mul(0xbf58_476d_1ce4_e5b9);
        let b = (a ^ (a >> 27)).wrapping_mul(0x94d0_49bb_1331_11eb);
        b ^ (b >> 31)
    }

    /// A number below a bound above 0.
    pub fn below(&mut self, bound: usize) -> usize {
        (self.next_number() % bound as u64) as usize
    }

    /// A number from one to another, both included.
    pub fn between(&mut self, low: usize, high: usize) -> usize {
        low + self.below(high - low + 1)
    }

    /// A graph with n vertices, m edges (none if n is 1) and weights from 1 to a most.
    pub fn graph(&mut self, n: usize, m: usize, most: usize) -> Graph {
        self.graph_of(n, m, |random| random.between(1, most))
    }

    /// The same, but about half of the edges are weightless.
    pub fn gated_graph(&mut self, n: usize, m: usize, most: usize) -> Graph {
        self.graph_of(n, m, |random| random.below(2) * random.between(1, most))
    }

    /// One of the two: about every fourth has weightless edges.
    pub fn any_graph(&mut self, n: usize, m: usize, most: usize) -> Graph {
        if self.below(4) == 0 {
            self.gated_graph(n, m, most)
        } else {
            self.graph(n, m, most)
        }
    }

    /// A graph with n vertices and m edges (none if n is 1), each of which joins two different vertices.
    fn graph_of(&mut self, n: usize, m: usize, weight: impl Fn(&mut Random) -> usize) -> Graph {
        let m = if n == 1 { 0 } else { m };
        let edge = |_| {
            let a = self.below(n);
            let b = (a + 1 + self.below(n - 1)) % n;
            Edge { a, b, weight: weight(self) as u64 }
        };
        Graph { n, edges: (0..m).map(edge).collect() }
    }
}
