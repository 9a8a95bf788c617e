//! Records about weightless edges: by hand, alone and beside others, side by side and in loops; for as many trees as a limit
//! of 0 needs and for one less; and the largest graphs. Many other made graphs have such edges too.

use crate::best;
use crate::cover::{encode as cover_bytes, Tree};
use crate::districts::Record;
use crate::graph::{sheet, Graph};
use crate::made_filings::changed_trees;
use crate::made_records::{around_best, at, best_of, check_of, deepest, full_size, BOTH};
use crate::made_shapes::{graph, Shape, Weights, GATED, SHAPES};
use crate::made_trials::at_turns;
use crate::question::Kind;
use crate::random::Random;
use crate::trial::{run, Outcome};

/// A graph by hand: its vertices and its edges (end, end, weight).
pub type ByHand = (usize, &'static [(usize, usize, u64)]);

/// A footbridge beside an edge of weight 5, and vertex 3 alone: at limit 0 the components are 0 1, 2 and 3.
pub const FOOTBRIDGE: ByHand = (4, &[(0, 1, 0), (1, 2, 5)]);

/// Two parts at root 0, of which root 1 gets one; its own way there is weightless.
pub const SHARED: ByHand = (5, &[(0, 2, 0), (1, 2, 0), (2, 3, 5), (2, 4, 5)]);

/// The same, but root 1 comes there by 2 and then by either of two weightless ways, between which an edge is weightless too.
pub const FARTHER: ByHand = (
    8,
    &[
        (0, 2, 1),
        (2, 3, 5),
        (2, 4, 5),
        (1, 5, 2),
        (5, 6, 0),
        (6, 2, 0),
        (5, 7, 0),
        (7, 2, 0),
        (6, 7, 0),
    ],
);

/// At limit 4 without roots edges 1 and 2 are a part, and what is left has edge 0 alone, which weighs nothing.
pub const LEFT: ByHand = (4, &[(0, 1, 0), (1, 2, 4), (2, 3, 4)]);

/// At limit 6 the part of edge 4 is root 0's and the other root 1's; beside the way to edge 4 lies the weightless edge 1 of the
/// other part.
pub const BESIDE: ByHand = (7, &[(0, 2, 0), (2, 3, 0), (3, 4, 5), (2, 5, 5), (2, 6, 6), (1, 4, 6)]);

/// At limit 6 the way from root 0 to its part may go on from vertex 2 of the part, by root 1, to vertex 3 of the part.
pub const BEYOND: ByHand = (6, &[(0, 2, 0), (2, 3, 0), (3, 4, 5), (2, 5, 5), (1, 2, 0), (1, 3, 0)]);

/// Graphs on which a wrong reading of weight 0 would show.
pub const BY_HAND: [ByHand; 13] = [
    (2, &[(0, 1, 0)]),
    FOOTBRIDGE,
    // Several between one pair, lighter and heavier ones, and the heavier one first.
    (3, &[(0, 1, 0), (1, 0, 0), (0, 1, 3), (1, 2, 2), (2, 1, 0), (1, 2, 0)]),
    // Loops of weightless edges with a heavier edge between them.
    (6, &[(0, 1, 0), (1, 2, 0), (2, 0, 0), (2, 3, 4), (3, 4, 0), (4, 5, 0), (5, 3, 0)]),
    // A loop whose heaviest edge comes first by number.
    (4, &[(0, 1, 7), (1, 2, 0), (2, 3, 0), (3, 0, 0)]),
    // A weightless edge between two roots.
    (4, &[(0, 1, 0), (1, 2, 3), (2, 3, 0)]),
    SHARED,
    FARTHER,
    BESIDE,
    BEYOND,
    LEFT,
    (6, &[(0, 1, 0), (1, 2, 2), (2, 3, 2), (3, 4, 2), (4, 5, 2)]),
    // A vertex in the middle of weightless edges, and three behind heavier ones.
    (7, &[(3, 0, 0), (3, 1, 0), (3, 2, 0), (3, 4, 1), (3, 5, 2), (3, 6, 3), (4, 5, 0)]),
];

/// Every such record without lists.
pub fn gates() -> Vec<Record> {
    let mut random = Random::new(104);
    let mut all = Vec::new();
    for (n, edges) in BY_HAND {
        all.extend(in_every_way(&mut random, &Graph::new(n, edges)));
    }
    for (i, &shape) in SHAPES.iter().cycle().take(2 * SHAPES.len()).enumerate() {
        let n = random.between(4, 14);
        let graph = graph(&mut random, shape, n, 2, GATED[i % GATED.len()]);
        BOTH.iter().for_each(|&kind| all.extend(at_the_brink(kind, &graph)));
    }
    all.extend(for_32_trees());
    all.extend(filed_loops());
    all.extend(largest(&mut random));
    all
}

/// Both kinds: the number of trees that a limit of 0 needs, and one less; for 1 and 2 trees trials next to every limit where
/// the reply changes, and the best limit; for 2 trees the checks of its cover and of those with any one edge more or less.
fn in_every_way(random: &mut Random, graph: &Graph) -> Vec<Record> {
    let sheet = graph.to_sheet();
    let mut all = Vec::new();
    for kind in BOTH {
        all.extend(at_the_brink(kind, graph));
        for k in [1, 2] {
            let trials = at_turns(kind, graph, k);
            all.extend(trials.iter().map(|trial| at(kind, k, trial.limit, &sheet)));
            all.push(best_of(kind, k, &sheet));
        }
        let Some((_, trees)) = best::search(kind, graph, 2) else { continue };
        all.push(check_of(kind, 2, &sheet, cover_bytes(&trees)));
        let covers = changed_trees(random, graph, &trees);
        all.extend(covers.into_iter().map(|cover| check_of(kind, 2, &sheet, cover)));
    }
    all
}

/// Trials at 0 and at 1 and the best limit, for as few trees as a limit of 0 can do with, and for one less.
pub fn at_the_brink(kind: Kind, graph: &Graph) -> Vec<Record> {
    let sheet = graph.to_sheet();
    let is_enough = |k: &usize| matches!(run(kind, graph, *k, 0), Outcome::Cover(_));
    let enough = (1..=graph.n.min(32)).find(is_enough).expect("32 trees are enough");
    let counts = (enough - 1..=enough).filter(|&k| k > 0);
    let asked = |k| [at(kind, k, 0, &sheet), at(kind, k, 1, &sheet), best_of(kind, k, &sheet)];
    counts.flat_map(asked).collect()
}

/// Pairs joined by weightless edges: 32 of them, and one vertex more, for 31 trees and for 32.
fn for_32_trees() -> Vec<Record> {
    let pairs: Vec<(usize, usize, u64)> = (0..32).map(|v| (v, 32 + v, 0)).collect();
    let mut all = Vec::new();
    for (n, kind) in BOTH.into_iter().flat_map(|kind| [(64, kind), (65, kind)]) {
        let bytes = sheet(n, &pairs);
        for k in [31, 32] {
            all.extend([at(kind, k, 0, &bytes), best_of(kind, k, &bytes)]);
        }
    }
    all
}

/// Checks of one tree on a loop of three weightless edges, with one more beside the first: every set of these edges.
fn filed_loops() -> Vec<Record> {
    let looped = sheet(3, &[(0, 1, 0), (1, 2, 0), (2, 0, 0), (0, 1, 0)]);
    let edges = |set: usize| (0..4).filter(|e| set >> e & 1 == 1).collect();
    let filed = |set: usize| cover_bytes(&[Tree::new(0, edges(set))]);
    let asked = BOTH.into_iter().flat_map(|kind| (0..16).map(move |set| (kind, set)));
    asked.map(|(kind, set)| check_of(kind, 1, &looped, filed(set))).collect()
}

/// The deepest trees, and 256 vertices with 2,048 edges, some weightless, or all.
fn largest(random: &mut Random) -> Vec<Record> {
    let mut all = Vec::new();
    for (shape, k) in [(Shape::Path, 1), (Shape::Star, 32), (Shape::Caterpillar, 32)] {
        let graph = deepest(random, shape, Weights::Between(0, 3));
        BOTH.iter().for_each(|&kind| all.extend(around_best(random, kind, &graph, k)));
    }
    let weightless = deepest(random, Shape::Path, Weights::Between(0, 0));
    BOTH.iter().for_each(|&kind| all.extend(at_the_brink(kind, &weightless)));
    let sheet = full_size(random, Shape::Grid, Weights::Either(0, 5)).to_sheet();
    all.extend(BOTH.map(|kind| best_of(kind, 32, &sheet)));
    let sheet = full_size(random, Shape::Grid, Weights::Between(0, 0)).to_sheet();
    all.extend(BOTH.map(|kind| at(kind, 1, 0, &sheet)));
    all
}
