//! Made inputs of the program `rounds`: trials and best limits of both kinds, full-size, damaged, short and long ones.

use crate::best;
use crate::bytes::{put_four, put_two};
use crate::graph::{sheet, Graph};
use crate::made_filings::{changed_fields, changed_lengths};
use crate::made_gates::FOOTBRIDGE;
use crate::made_shapes::{any_weights, damaged_sheets, graph, pairs, shuffled, weighed};
use crate::made_shapes::{Shape, POSITIVE, SEARCHED, SHAPES};
use crate::question::{Kind, LIMIT};
use crate::random::Random;

/// The input of a question: its number, k, a limit and the bytes of a graph.
pub fn input(question: usize, k: usize, limit: u64, sheet: &[u8]) -> Vec<u8> {
    let mut out = Vec::new();
    put_two(&mut out, question);
    put_two(&mut out, k);
    put_four(&mut out, limit);
    out.extend_from_slice(sheet);
    out
}

/// The inputs of one round, some hundred, with other graphs in every round.
pub fn inputs(round: u64) -> Vec<Vec<u8>> {
    let mut random = Random::new(1_000_003 * round + 7);
    let mut all = Vec::new();
    for shape in SHAPES {
        let most = if random.below(4) == 0 { 60 } else { 12 };
        all.extend(on_a_shape(&mut random, shape, most));
    }
    all.extend(full_size(&mut random, SHAPES[round as usize % SHAPES.len()]));
    all.extend(damaged(&mut random, 1 + round as usize % 4));
    all.extend(of_any_length(&mut random));
    let (n, edges) = FOOTBRIDGE;
    for (n, k, edges) in SEARCHED.into_iter().chain([(n, 1, edges), (n, 3, edges)]) {
        let graph = Graph::new(n, edges);
        all.extend(around_best(&mut random, Kind::Rooted, &graph, k));
        all.extend(around_best(&mut random, Kind::Unrooted, &graph, k));
    }
    all
}

/// Questions on one graph of a shape with at most so many vertices.
fn on_a_shape(random: &mut Random, shape: Shape, most: usize) -> Vec<Vec<u8>> {
    let n = random.between(1, most);
    let k = random.between(1, n.min(5));
    let weights = any_weights(random, &POSITIVE);
    let graph = graph(random, shape, n, k, weights);
    let mut all = around_best(random, Kind::Rooted, &graph, k);
    let k = random.between(1, 5);
    all.extend(around_best(random, Kind::Unrooted, &graph, k));
    all
}

/// The question of the best limit, and trials at 0, at the sum, at any limit, and around the best limit if there is one.
fn around_best(random: &mut Random, kind: Kind, graph: &Graph, k: usize) -> Vec<Vec<u8>> {
    let bytes = graph.to_sheet();
    let (trial, best) = if kind == Kind::Rooted { (1, 3) } else { (2, 4) };
    let sum = graph.total();
    let mut limits = vec![0, sum, random.below(sum as usize + 2) as u64];
    if let Some((limit, _)) = best::search(kind, graph, k) {
        limits.extend([limit, limit + 1, limit.saturating_sub(1), limit / 2 + 1]);
    }
    limits.sort_unstable();
    limits.dedup();
    let unread = random.next_number() % (1 << 32);
    let mut all = vec![input(best, k, unread, &bytes)];
    all.extend(limits.into_iter().map(|limit| input(trial, k, limit, &bytes)));
    all
}

/// Questions on a graph of 256 vertices and 2,048 edges, the shape's own first, for 32 trees and for fewer.
fn full_size(random: &mut Random, shape: Shape) -> Vec<Vec<u8>> {
    let weights = any_weights(random, &POSITIVE);
    let mut graph = graph(random, shape, 256, 32, weights);
    let room = 2_048 - graph.edges.len();
    if random.below(2) == 0 {
        let more = pairs(random, 256, room);
        graph.edges.extend(Graph::new(256, &weighed(random, more, weights)).edges);
    } else {
        let own = graph.edges.clone();
        graph.edges.extend(own.into_iter().cycle().take(room));
    }
    graph.edges = shuffled(random, graph.edges);
    let mut all = Vec::new();
    for kind in [Kind::Rooted, Kind::Unrooted] {
        let k = if random.below(2) == 0 { 32 } else { random.between(1, 32) };
        all.extend(around_best(random, kind, &graph, k));
    }
    all
}

/// One question with damage at each field and of each length, refused graphs, and k and limits at their ends.
fn damaged(random: &mut Random, question: usize) -> Vec<Vec<u8>> {
    let n = random.between(2, 5);
    let m = random.between(1, 4);
    let good = random.any_graph(n, m, 9).to_sheet();
    let (k, limit) = (random.between(1, 2), random.between(0, 12) as u64);
    let whole = input(question, k, limit, &good);
    let mut all = changed_fields(random, &whole);
    all.extend(changed_lengths(&whole));
    for bytes in damaged_sheets() {
        all.push(input(random.between(1, 4), random.below(3), limit, &bytes));
    }
    for k in [0, 1, n, n + 1, 32, 33, 256, 65_535] {
        for limit in [limit, LIMIT, LIMIT + 1, u64::from(u32::MAX)] {
            all.push(input(random.between(1, 4), k, limit, &good));
        }
    }
    all
}

/// Bytes without meaning, questions of no known number, and questions as long as can be and longer.
fn of_any_length(random: &mut Random) -> Vec<Vec<u8>> {
    let bytes = |random: &mut Random, length: usize| -> Vec<u8> {
        (0..length).map(|_| random.below(256) as u8).collect()
    };
    let mut all: Vec<Vec<u8>> = (0..12).map(|length| bytes(random, length)).collect();
    let path = sheet(3, &[(0, 1, 2), (1, 2, 2)]);
    for question in [0, 5, 6, 255, 256, 257, 258, 1_024, 65_535, random.between(5, 65_535)] {
        all.push(input(question, 1, 4, &path));
    }
    let question = random.between(1, 4);
    for m in [2_047, 2_048, 2_049, 3_000, 8_000] {
        let limit = random.between(0, m) as u64;
        let whole = input(question, 1, limit, &sheet(2, &vec![(0, 1, 1); m]));
        all.extend([whole[..whole.len() - 1].to_vec(), [&whole[..], &[0]].concat(), whole]);
    }
    for length in [16_395, 16_396, 16_397, 20_000, 65_536, 70_000] {
        all.push([&[question as u8, 0], &bytes(random, length - 2)[..]].concat());
    }
    all
}
