//! Records of single questions, those around the best limit of a graph, and the largest graphs to make records of.

use crate::best;
use crate::cover::encode as cover_bytes;
use crate::districts::{Asked, Record};
use crate::graph::Graph;
use crate::made_filings::changed_fields;
use crate::made_shapes::{ends, graph, shuffled, weighed, Shape, Weights};
use crate::question::{Kind, BUFFER};
use crate::random::Random;

pub const BOTH: [Kind; 2] = [Kind::Rooted, Kind::Unrooted];

/// A trial at a limit.
pub fn at(kind: Kind, k: usize, limit: u64, sheet: &[u8]) -> Record {
    Record::plain(Asked::Trial { limit, room: BUFFER }, kind, k, sheet)
}

/// The question of the best limit.
pub fn best_of(kind: Kind, k: usize, sheet: &[u8]) -> Record {
    Record::plain(Asked::Best { room: BUFFER }, kind, k, sheet)
}

/// The check of a filed cover.
pub fn check_of(kind: Kind, k: usize, sheet: &[u8], cover: Vec<u8>) -> Record {
    Record::plain(Asked::Check { cover }, kind, k, sheet)
}

/// The best limit, trials around it, the check of its cover and of a damaged one.
pub fn around_best(random: &mut Random, kind: Kind, graph: &Graph, k: usize) -> Vec<Record> {
    let sheet = graph.to_sheet();
    let mut all = vec![best_of(kind, k, &sheet)];
    let Some((limit, trees)) = best::search(kind, graph, k) else {
        all.push(at(kind, k, graph.total(), &sheet));
        return all;
    };
    all.extend([at(kind, k, limit, &sheet), at(kind, k, 2 * limit / 3, &sheet)]);
    all.extend(limit.checked_sub(1).map(|below| at(kind, k, below, &sheet)));
    let good = cover_bytes(&trees);
    let bad = changed_fields(random, &good);
    all.push(check_of(kind, k, &sheet, bad[random.below(bad.len())].clone()));
    all.push(check_of(kind, k, &sheet, good));
    all
}

/// Both kinds around the best limits for 1 tree and for 32.
pub fn around_best_for_few_and_many(random: &mut Random, graph: &Graph) -> Vec<Record> {
    let asked = [1, 32].into_iter().flat_map(|k| BOTH.map(|kind| (kind, k)));
    asked.flat_map(|(kind, k)| around_best(random, kind, graph, k)).collect()
}

/// 256 vertices and 2,048 edges, the roots being 0 to 31: a shape's own edges, repeated.
pub fn full_size(random: &mut Random, shape: Shape, weights: Weights) -> Graph {
    let mut graph = graph(random, shape, 256, 32, weights);
    let own = graph.edges.clone();
    graph.edges = shuffled(random, own.into_iter().cycle().take(2_048).collect());
    graph
}

/// A tree of 256 vertices, numbered from its root on: with one root a path is as deep as a tree can be.
pub fn deepest(random: &mut Random, shape: Shape, weights: Weights) -> Graph {
    let ends = ends(random, shape, 256, 0);
    Graph::new(256, &weighed(random, ends, weights))
}
