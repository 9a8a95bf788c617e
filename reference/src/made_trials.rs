//! Made trials, on both sides of the limits where the reply changes.

use std::collections::BTreeSet;

use crate::best;
use crate::distance::from_roots;
use crate::graph::{sheet, Graph};
use crate::made_shapes::{any_weights, damaged_sheets, ends, graph, mixed, mixed_from, pairs};
use crate::made_shapes::{shuffled, weighed, Edges, Ends, Shape, Weights};
use crate::made_shapes::{CHAIN, CROWD, HALVES, LOOP, POSITIVE, SHAPES};
use crate::question::{Kind, LIMIT};
use crate::random::Random;
use crate::trial::run;
use crate::vans::Crews;

/// A trial: its kind, the number of trees, the limit, and the bytes of a graph, right or wrong.
#[derive(Clone, Debug, PartialEq, Eq)]
pub struct Trial {
    pub kind: Kind,
    pub k: usize,
    pub limit: u64,
    pub sheet: Vec<u8>,
}

/// Every trial: the smallest graphs, refused questions, graphs of every shape and weight, and the largest ones.
pub fn trials() -> Vec<Trial> {
    let mut random = Random::new(83);
    let mut all = smallest();
    all.extend(refused());
    all.extend(tempting(&mut random));
    for turn in 0..24 {
        SHAPES.iter().for_each(|&shape| all.extend(small(&mut random, shape, turn)));
    }
    for turn in 0..2 {
        SHAPES.iter().for_each(|&shape| all.extend(middling(&mut random, shape, turn)));
    }
    all.extend(trees(&mut random));
    all.extend(full_size(&mut random));
    all
}

/// A trial of each kind on a graph's bytes.
fn both(sheet: &[u8], k: usize, limit: u64) -> Vec<Trial> {
    let of = |kind: Kind| Trial { kind, k, limit, sheet: sheet.to_vec() };
    vec![of(Kind::Rooted), of(Kind::Unrooted)]
}

/// One vertex, vertices without edges, and a path of three edges with its ends as roots, at the ends of the ranges too.
fn smallest() -> Vec<Trial> {
    let alone = sheet(1, &[]);
    let path = sheet(4, &[(0, 2, 3), (2, 3, 3), (1, 3, 5)]);
    let mut all = Vec::new();
    for limit in [0, 1, LIMIT] {
        all.extend(both(&alone, 1, limit));
        all.extend(both(&sheet(2, &[]), 1, limit));
        all.extend(both(&sheet(2, &[]), 2, limit));
        all.extend(both(&sheet(256, &[]), 32, limit));
    }
    for k in 1..=4 {
        (0..=12).for_each(|limit| all.extend(both(&path, k, limit)));
    }
    all.extend(both(&path, 2, LIMIT));
    all
}

/// Questions refused with 11 to 16, 21 and 22, alone and several at once, and those next to them that are not.
fn refused() -> Vec<Trial> {
    let mut all = Vec::new();
    for bytes in damaged_sheets() {
        all.extend(both(&bytes, 1, 9));
        if bytes.len() < 100 {
            all.extend(both(&bytes, 0, LIMIT + 1));
        }
    }
    let edge = sheet(2, &[(0, 1, 1)]);
    for k in [0, 1, 2, 3, 32, 33, 256, 257, 65_535] {
        [1, LIMIT, LIMIT + 1, u64::from(u32::MAX)].iter().for_each(|&limit| {
            all.extend(both(&edge, k, limit));
        });
    }
    for n in [31, 32, 33] {
        let star = sheet(n, &(1..n).map(|v| (0, v, 2)).collect::<Vec<_>>());
        [31, 32, 33].iter().for_each(|&k| all.extend(both(&star, k, 2)));
    }
    all
}

/// Graphs on which a tempting mistake would show: as they are, a hundred thousand times as heavy, and mixed.
fn tempting(random: &mut Random) -> Vec<Trial> {
    let mut all = Vec::new();
    for (n, k, edges) in [(4, 2, CHAIN), (7, 2, LOOP), (6, 2, HALVES), (9, 3, CROWD)] {
        let heavy: Edges = edges.iter().map(|&(a, b, weight)| (a, b, 100_000 * weight)).collect();
        let mut graphs = vec![Graph::new(n, edges), Graph::new(n, &heavy)];
        (0..2).for_each(|_| graphs.push(mixed_from(random, k, n, edges.to_vec())));
        for graph in graphs {
            all.extend(at_turns(Kind::Rooted, &graph, k));
            all.extend(at_turns(Kind::Unrooted, &graph, k));
        }
    }
    all
}

/// Trials of one kind on one graph of a few vertices, next to every limit where the reply changes.
fn small(random: &mut Random, shape: Shape, turn: usize) -> Vec<Trial> {
    let n = random.between(if turn == 0 { 1 } else { 4 }, 10);
    let kind = if turn % 4 < 3 { Kind::Rooted } else { Kind::Unrooted };
    let k = random.between(1, n.min(3));
    let weights = any_weights(random, &POSITIVE);
    let graph = graph(random, shape, n, k, weights);
    at_turns(kind, &graph, k)
}

/// Trials on one graph of some dozen vertices, next to every limit seen where the reply changes.
fn middling(random: &mut Random, shape: Shape, turn: usize) -> Vec<Trial> {
    let n = random.between(12, 40);
    let kind = if turn % 2 == 0 { Kind::Rooted } else { Kind::Unrooted };
    let k = random.between(2, 9);
    let weights = any_weights(random, &POSITIVE);
    let graph = graph(random, shape, n, k, weights);
    at_turns(kind, &graph, k)
}

/// A trial of one kind on a graph at each of the given limits.
fn at_limits(
    kind: Kind,
    graph: &Graph,
    k: usize,
    limits: impl IntoIterator<Item = u64>,
) -> Vec<Trial> {
    let sheet = graph.to_sheet();
    let trial = |limit| Trial { kind, k, limit, sheet: sheet.clone() };
    limits.into_iter().map(trial).collect()
}

/// Trials at 0, at the sum, and on both sides of every change of the reply that is seen.
pub fn at_turns(kind: Kind, graph: &Graph, k: usize) -> Vec<Trial> {
    at_limits(kind, graph, k, turns(kind, graph, k))
}

/// The limits of those trials.
pub fn turns(kind: Kind, graph: &Graph, crews: impl Crews) -> BTreeSet<u64> {
    let looked: Vec<u64> = looked_at(graph, &crews).into_iter().collect();
    let mut limits = BTreeSet::from([0, graph.total()]);
    for pair in looked.windows(2) {
        if run(kind, graph, &crews, pair[0]) != run(kind, graph, &crews, pair[1]) {
            limits.extend(turn_between(kind, graph, &crews, pair[0], pair[1]));
        }
    }
    limits
}

/// How large a sum of weights may be for every limit to be looked at.
const EVERY: u64 = 400;

/// The limits at which the replies are compared: all, or the weights, distances and even steps up to the sum.
fn looked_at(graph: &Graph, crews: impl Crews) -> BTreeSet<u64> {
    let sum = graph.total();
    if sum <= EVERY {
        return (0..=sum + 1).collect();
    }
    let mut looked: BTreeSet<u64> = (0..=128).map(|i| sum * i / 128).collect();
    looked.extend(graph.edges.iter().map(|edge| edge.weight));
    looked.extend(from_roots(graph, crews).into_iter().flatten().flatten());
    looked
}

/// Two limits, one above the other by 1, with different replies, between two with different replies.
fn turn_between(kind: Kind, graph: &Graph, crews: impl Crews, low: u64, high: u64) -> [u64; 2] {
    let before = run(kind, graph, &crews, low);
    let (mut low, mut high) = (low, high);
    while high - low > 1 {
        let middle = low.midpoint(high);
        if run(kind, graph, &crews, middle) == before {
            low = middle;
        } else {
            high = middle;
        }
    }
    [low, high]
}

/// Trials around the best limit, at half and twice of it, at 0 and at the sum.
fn around_best(kind: Kind, graph: &Graph, k: usize) -> Vec<Trial> {
    let sum = graph.total();
    let mut limits = BTreeSet::from([0, sum]);
    if let Some((best, _)) = best::search(kind, graph, k) {
        limits.extend([best / 2, best.saturating_sub(1), best, best + 1, 2 * best]);
    }
    at_limits(kind, graph, k, limits.into_iter().filter(|&limit| limit <= sum))
}

/// A path, a star, a caterpillar and a random tree of 256 vertices, both as numbered and with vertices mixed; mixed ones but
/// the last have weightless edges.
fn trees(random: &mut Random) -> Vec<Trial> {
    let mut all = Vec::new();
    for shape in [Shape::Path, Shape::Star, Shape::Caterpillar, Shape::Tree] {
        for (is_mixed, k) in [(false, 7), (true, 32)] {
            let ends = ends(random, shape, 256, k);
            let least = usize::from(!is_mixed || shape == Shape::Tree);
            let graph = made(random, ends, Weights::Between(least, 9), is_mixed);
            for kind in [Kind::Rooted, Kind::Unrooted] {
                all.extend(around_best(kind, &graph, k));
            }
        }
    }
    all
}

/// 256 vertices and 2,048 edges for 32 trees: bare shapes with each edge repeated, and many edges between any two.
fn full_size(random: &mut Random) -> Vec<Trial> {
    let rows = [
        (Shape::Grid, Weights::Between(1_000_000, 1_000_000), false),
        (Shape::Far, Weights::Between(1, 9), false),
        (Shape::Path, Weights::Between(0, 9), true),
        (Shape::Scattered, Weights::Between(1, 1_000_000), true),
    ];
    let mut all = Vec::new();
    for (shape, weights, is_mixed) in rows {
        let ends = match shape {
            Shape::Scattered => pairs(random, 256, 2_048),
            _ => ends(random, shape, 256, 32).into_iter().cycle().take(2_048).collect(),
        };
        let graph = made(random, ends, weights, is_mixed);
        for kind in [Kind::Rooted, Kind::Unrooted] {
            all.extend(around_best(kind, &graph, 32));
        }
    }
    all
}

/// A graph of 256 vertices with its edges in a random order, its vertices as numbered or mixed.
fn made(random: &mut Random, ends: Ends, weights: Weights, is_mixed: bool) -> Graph {
    let edges = weighed(random, ends, weights);
    if is_mixed {
        return mixed(random, 256, edges);
    }
    Graph::new(256, &shuffled(random, edges))
}
