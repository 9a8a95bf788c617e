//! Graphs of many shapes and weights, and damaged bytes of graphs, to make questions of.

use crate::graph::{sheet, Graph};
use crate::random::Random;

/// Pairs of ends of the edges of a graph that is being made.
pub type Ends = Vec<(usize, usize)>;

/// The edges (end, end, weight) of a graph that is being made.
pub type Edges = Vec<(usize, usize, u64)>;

/// How the edges of a graph lie.
#[derive(Clone, Copy, Debug, PartialEq, Eq)]
pub enum Shape {
    /// Any edges, few or many.
    Scattered,
    /// A random tree and as many edges more.
    Connected,
    Tree,
    Path,
    Star,
    /// A path with a leg at each of its vertices.
    Caterpillar,
    Grid,
    /// A path whose steps are several edges each.
    Bundles,
    /// The roots in a row, a long way, and all the others behind it.
    Far,
    /// Two connected graphs with nothing between them.
    Apart,
}

pub const SHAPES: [Shape; 10] = [
    Shape::Scattered,
    Shape::Connected,
    Shape::Tree,
    Shape::Path,
    Shape::Star,
    Shape::Caterpillar,
    Shape::Grid,
    Shape::Bundles,
    Shape::Far,
    Shape::Apart,
];

/// What the edges of a graph weigh.
#[derive(Clone, Copy, Debug, PartialEq, Eq)]
pub enum Weights {
    /// Anything from one number to another, both included.
    Between(usize, usize),
    /// One of two numbers.
    Either(usize, usize),
}

/// Weights that leave no edge weightless.
pub const POSITIVE: [Weights; 8] = [
    Weights::Between(1, 1),
    Weights::Between(1, 3),
    Weights::Between(1, 9),
    Weights::Between(5, 8),
    Weights::Either(1, 20),
    Weights::Between(1_000_000, 1_000_000),
    Weights::Between(1, 1_000_000),
    Weights::Either(1, 1_000_000),
];

/// Weights that make some edges weightless, or all.
pub const GATED: [Weights; 5] = [
    Weights::Between(0, 0),
    Weights::Between(0, 1),
    Weights::Between(0, 3),
    Weights::Either(0, 5),
    Weights::Either(0, 1_000_000),
];

/// One of the given weights, or, every fourth time, one of those that make edges weightless.
pub fn any_weights(random: &mut Random, positive: &[Weights]) -> Weights {
    let list = if random.below(4) == 0 { &GATED[..] } else { positive };
    list[random.below(list.len())]
}

/// Two paths from root 0, of which root 1 is near the far end of the second edge only.
pub const CHAIN: &[(usize, usize, u64)] = &[(0, 2, 5), (2, 3, 5), (1, 3, 5)];

/// The shortest path from root 1 to the part 0 1 closes a loop with what is left at root 1.
pub const LOOP: &[(usize, usize, u64)] =
    &[(0, 2, 5), (2, 3, 5), (1, 4, 2), (4, 5, 2), (1, 5, 3), (5, 3, 5), (0, 6, 9)];

/// Two halves joined by one edge of weight 8.
pub const HALVES: &[(usize, usize, u64)] = &[(5, 1, 7), (3, 1, 6), (5, 4, 8), (4, 2, 6), (4, 0, 5)];

/// Three parts at limit 10, of which only root 0 is near two.
pub const CROWD: &[(usize, usize, u64)] = &[
    (2, 1, 1),
    (0, 7, 2),
    (7, 4, 8),
    (3, 1, 8),
    (5, 4, 7),
    (7, 8, 8),
    (7, 3, 3),
    (6, 3, 9),
    (0, 7, 10),
];

/// A path on which a search that rounds up ends at 8 for two trees without roots, and one that rounds down at 10.
pub const UNEVEN: &[(usize, usize, u64)] = &[(1, 5, 7), (0, 3, 7), (5, 4, 6), (4, 0, 9), (3, 2, 8)];

/// For two trees with roots one trial more makes the heaviest tree heavier: at limit 5 nothing is split, at 2 edges 1 and 4 are
/// parts, and root 0, which has edge 0 left, has 2 to go to the second.
pub const RISING_ROOTED: &[(usize, usize, u64)] =
    &[(0, 2, 1), (3, 4, 2), (0, 1, 2), (2, 0, 3), (1, 3, 2)];

/// The same for three trees without roots: at limit 6 edge 3 and what is left below it are a part alone, at 5 edge 4 is dropped
/// and all the others bunch to one part.
pub const RISING_UNROOTED: &[(usize, usize, u64)] =
    &[(5, 0, 4), (2, 1, 5), (3, 0, 3), (1, 0, 1), (1, 4, 6)];

/// A graph with the number of trees to ask for: vertices, k, edges.
pub type ForTrees = (usize, usize, &'static [(usize, usize, u64)]);

/// Graphs on which a tempting mistake of the search would show: some limits are accepted below others that are not.
pub const SEARCHED: [ForTrees; 3] = [(6, 2, HALVES), (9, 3, CROWD), (6, 2, UNEVEN)];

/// A graph of n vertices whose edges come in a random order; in a Far one the roots are 0 to k - 1.
///
/// Every second one but the Far ones has its vertices renumbered at random.
pub fn graph(random: &mut Random, shape: Shape, n: usize, k: usize, weights: Weights) -> Graph {
    let ends = ends(random, shape, n, k);
    let edges = weighed(random, ends, weights);
    if shape != Shape::Far && random.below(2) == 0 {
        return mixed(random, n, edges);
    }
    Graph::new(n, &shuffled(random, edges))
}

/// The ends of the edges of a shape with n vertices, the roots being 0 to k - 1.
pub fn ends(random: &mut Random, shape: Shape, n: usize, k: usize) -> Ends {
    match shape {
        Shape::Scattered => {
            let m = random.between(0, 2 * n);
            pairs(random, n, m)
        }
        Shape::Connected => [tree(random, 0, n), pairs(random, n, n)].concat(),
        Shape::Tree => tree(random, 0, n),
        Shape::Path => (1..n).map(|v| (v - 1, v)).collect(),
        Shape::Star => (1..n).map(|v| (v, 0)).collect(),
        Shape::Caterpillar => {
            let half = n / 2;
            (1..n).map(|v| if v < half { (v - 1, v) } else { (v, v - half) }).collect()
        }
        Shape::Grid => grid(n),
        Shape::Bundles => {
            let several = |v| vec![(v, v - 1); random.between(1, 4)];
            (1..n).flat_map(several).collect()
        }
        Shape::Far => far(random, n, k),
        Shape::Apart => {
            let cut = n.div_ceil(2);
            [tree(random, 0, cut), tree(random, cut, n), tree(random, cut, n)].concat()
        }
    }
}

/// So many pairs of different vertices; none if there is one vertex only.
pub fn pairs(random: &mut Random, n: usize, m: usize) -> Ends {
    random.graph(n, m, 1).edges.iter().map(|edge| (edge.a, edge.b)).collect()
}

/// A random tree of the vertices from one number up to below another.
fn tree(random: &mut Random, low: usize, high: usize) -> Ends {
    (low + 1..high).map(|v| (low + random.below(v - low), v)).collect()
}

/// A grid as square as can be, its rows filled one by one.
fn grid(n: usize) -> Ends {
    let width = (1..=n).find(|w| w * w >= n).unwrap_or(1);
    let right = |v: usize| (v % width + 1 < width && v + 1 < n).then_some((v, v + 1));
    let below = |v: usize| (v + width < n).then_some((v, v + width));
    (0..n).flat_map(|v| right(v).into_iter().chain(below(v))).collect()
}

/// The vertices below k and a third of the others in a row, the rest a random tree at its end.
fn far(random: &mut Random, n: usize, k: usize) -> Ends {
    let end = k + (n - k) / 3;
    (1..n).map(|v| (if v < end { v - 1 } else { random.between(end - 1, v - 1) }, v)).collect()
}

/// A random weight for each pair of ends.
pub fn weighed(random: &mut Random, ends: Ends, weights: Weights) -> Edges {
    let mut weight = || match weights {
        Weights::Between(least, most) => random.between(least, most) as u64,
        Weights::Either(one, other) => [one, other][random.below(2)] as u64,
    };
    ends.into_iter().map(|(a, b)| (a, b, weight())).collect()
}

/// A list in a random order.
pub fn shuffled<T>(random: &mut Random, mut list: Vec<T>) -> Vec<T> {
    for i in (1..list.len()).rev() {
        list.swap(i, random.below(i + 1));
    }
    list
}

/// The graph with its edges in a random order and its vertices renumbered at random.
pub fn mixed(random: &mut Random, n: usize, edges: Edges) -> Graph {
    mixed_from(random, 0, n, edges)
}

/// The graph with its edges in a random order and its vertices from k on renumbered at random.
pub fn mixed_from(random: &mut Random, k: usize, n: usize, edges: Edges) -> Graph {
    let name: Vec<usize> = (0..k).chain(shuffled(random, (k..n).collect())).collect();
    let renamed = edges.iter().map(|&(a, b, weight)| (name[a], name[b], weight)).collect();
    Graph::new(n, &shuffled(random, renamed))
}

/// Bytes of graphs that are refused with 11 to 16.
pub fn damaged_sheets() -> Vec<Vec<u8>> {
    let short = sheet(2, &[(0, 1, 1)]);
    let mut sheets = vec![vec![], vec![2, 0, 1], short[..11].to_vec(), [&short[..], &[0]].concat()];
    sheets.push(sheet(0, &[]));
    sheets.push(sheet(257, &[]));
    sheets.push(sheet(2, &vec![(0, 1, 1); 2_049]));
    let too_heavy = [(0, 1, 1_000_001), (0, 1, u64::from(u32::MAX))];
    for bad in [(2, 1, 1), (0, 2, 1), (1, 1, 1)].into_iter().chain(too_heavy) {
        sheets.push(sheet(2, &[bad]));
        sheets.push(sheet(2, &[(0, 1, 1), bad]));
    }
    sheets
}
