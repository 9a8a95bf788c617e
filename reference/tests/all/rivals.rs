//! Our longest walk at the best limit beside anybody's closed walks that together come to every stop, on small graphs.

use std::collections::BTreeMap;

use crate::common::crossings::{each_sequence, stops_of};
use crate::common::{buffer, BOTH};
use reference::best::best;
use reference::bytes::two;
use reference::cover::filed_length;
use reference::graph::Graph;
use reference::made_shapes::{graph, Weights, GATED, POSITIVE, SHAPES};
use reference::optimum::Shape;
use reference::question::{Answer, Kind};
use reference::random::Random;
use reference::rivals::{closed_walks, least_longest};
use reference::walk::walk;

/// The longest walk of the trees that the best limit's cover has, each asked with that cover; nothing where there is none.
fn our_longest(kind: Kind, graph: &Graph, k: usize) -> Option<u64> {
    let (sheet, k) = (graph.to_sheet(), k as u64);
    let mut lent = buffer();
    let Answer::Cover { .. } = best(kind, &sheet, k, &mut lent) else { return None };
    let cover = lent[..filed_length(&lent)?].to_vec();
    let length = |tree: usize| walk(kind, &sheet, k, &cover, tree, &mut lent).expect("a walk").1;
    (0..two(&cover, 0)).map(length).max()
}

/// Our longest walk and the rivals' least longest, where there are any; the first is at most eight times the second.
fn compared(kind: Kind, graph: &Graph, k: usize) -> Option<(u64, u64)> {
    let (ours, least) = (our_longest(kind, graph, k), least_longest(kind, graph, k));
    assert_eq!(ours.is_some(), least.is_some(), "{kind:?} k {k} {graph:?}");
    let (ours, least) = (ours?, least?);
    assert!(least <= ours && ours <= 8 * least, "{ours} {least} {kind:?} k {k} {graph:?}");
    Some((ours, least))
}

/// The pair with the larger ratio.
fn worse(one: (u64, u64), other: (u64, u64)) -> (u64, u64) {
    if other.0 * one.1 > one.0 * other.1 {
        other
    } else {
        one
    }
}

/// Compares on made graphs with these weights: the worst ratio met of each kind, and how often nobody's walks need be longer
/// than 0, nor are ours.
fn on_made_graphs(turns: usize, weights: &[Weights]) -> ([(u64, u64); 2], [usize; 2]) {
    let mut random = Random::new(71);
    let (mut worst, mut of_no_length) = ([(1, 1); 2], [0; 2]);
    for turn in 0..turns {
        for shape in SHAPES {
            let n = random.between(2, if turn % 4 == 0 { 8 } else { 6 });
            let most = random.between(1, n.min(4));
            let weights = weights[random.below(weights.len())];
            let graph = graph(&mut random, shape, n, most, weights);
            for (kind, k) in BOTH.into_iter().flat_map(|kind| (1..=most).map(move |k| (kind, k))) {
                let pair = compared(kind, &graph, k).unwrap_or((1, 1));
                worst[kind as usize] = worse(worst[kind as usize], pair);
                of_no_length[kind as usize] += usize::from(pair == (0, 0));
            }
        }
    }
    (worst, of_no_length)
}

/// The worst ratio met of each kind is 34 : 12 with roots and 10 : 3 without.
#[test]
fn our_longest_walk_is_within_eight_times() {
    assert_eq!(on_made_graphs(400, &POSITIVE).0, [(34, 12), (10, 3)]);
}

/// The worst ratio met with weightless edges is 10 : 4 with roots and 16 : 6 without. Where the rivals' longest walk can have
/// length 0, ours has.
#[test]
fn our_longest_walk_is_within_eight_times_with_weightless_edges() {
    let (worst, of_no_length) = on_made_graphs(200, &GATED);
    assert_eq!(worst, [(10, 4), (16, 6)]);
    assert!(of_no_length.iter().all(|&count| count > 1_000), "{of_no_length:?}");
}

/// The least length of a listed closed walk from each start for each set of vertices, as bits, that it comes to.
///
/// Of more than 2(v - 1) crossings that come to v vertices, v - 1 join these, and among the others is a loop; what is left
/// without it is a closed walk to the same vertices. So the least are among those listed.
fn listed(graph: &Graph) -> Vec<Vec<Shape>> {
    let from = |start: usize| {
        let mut least: BTreeMap<usize, u64> = BTreeMap::new();
        each_sequence(graph, start, 2 * (graph.n - 1), &mut |crossings| {
            let stops = stops_of(graph, start, crossings).expect("a walk");
            if stops.last() == Some(&start) {
                let set = stops.iter().fold(0, |set, stop| set | 1 << stop);
                let length = least.entry(set).or_insert(u64::MAX);
                *length = (*length).min(graph.weight(crossings));
            }
        });
        least.into_iter().collect()
    };
    (0..graph.n).map(from).collect()
}

/// The least longest of every choice of listed walks: for each root one of its own; without roots any, or none.
fn least_of_all(kind: Kind, k: usize, n: usize, from: &[Vec<Shape>]) -> Option<u64> {
    let mut all: Vec<Shape> = vec![(0, 0)];
    for j in 0..k {
        let choices = match kind {
            Kind::Rooted => from[j].clone(),
            Kind::Unrooted => [from.concat(), vec![(0, 0)]].concat(),
        };
        let with = |one: Shape| choices.iter().map(move |two| (one.0 | two.0, one.1.max(two.1)));
        all = all.into_iter().flat_map(with).collect();
    }
    let whole = all.into_iter().filter(|shape| shape.0 == (1 << n) - 1);
    whole.map(|shape| shape.1).min()
}

#[test]
fn the_least_longest_is_that_of_all_listed_walks() {
    let mut random = Random::new(72);
    let mut met = [0; 2];
    for _ in 0..300 {
        let (n, m) = (random.between(1, 4), random.between(0, 5));
        let graph = random.any_graph(n, m, 5);
        let from = listed(&graph);
        for (start, shapes) in from.iter().enumerate() {
            let mut found = closed_walks(&graph, start);
            found.sort_unstable();
            assert_eq!(found, *shapes, "from {start} {graph:?}");
        }
        for (kind, k) in BOTH.into_iter().flat_map(|kind| (1..=n.min(3)).map(move |k| (kind, k))) {
            let least = least_of_all(kind, k, n, &from);
            assert_eq!(least_longest(kind, &graph, k), least, "{kind:?} k {k} {graph:?}");
            met[usize::from(least.is_some())] += 1;
        }
    }
    assert!(met[0].min(met[1]) > 200, "{met:?}");
}

/// Kind, k, vertices, edges (end, end, weight), our longest walk and the rivals' least longest.
type Row = (Kind, usize, usize, &'static [(usize, usize, u64)], (u64, u64));

/// The worst that nine minutes of search found on at most eight vertices, changing edges at random and keeping what made the
/// ratio no smaller: 3.83 with roots, 4 without.
#[test]
fn the_worst_found_by_search() {
    let rows: [Row; 3] = [
        (Kind::Rooted, 3, 6, &[(5, 4, 9), (3, 0, 10), (2, 4, 10), (1, 3, 9), (1, 5, 10)], (76, 20)),
        (
            Kind::Rooted,
            3,
            8,
            &[
                (3, 0, 18),
                (5, 6, 13),
                (4, 0, 17),
                (7, 5, 19),
                (0, 1, 4),
                (7, 3, 17),
                (0, 1, 1),
                (2, 7, 1),
                (7, 6, 4),
            ],
            (138, 36),
        ),
        (
            Kind::Unrooted,
            3,
            5,
            &[(0, 4, 1), (0, 3, 1), (3, 2, 2), (4, 1, 2), (4, 3, 1), (0, 4, 66)],
            (12, 3),
        ),
    ];
    for (kind, k, n, edges, due) in rows {
        assert_eq!(compared(kind, &Graph::new(n, edges), k), Some(due));
    }
}

/// Clusters of stops, each a round of lines: the first stop, how many stops, and the weight of each line.
///
/// Fourteen clusters of 17 stops and, as the second and the third, two of 9; every round is 153,000 long.
fn clusters() -> Vec<(usize, usize, u64)> {
    let mut first = 0;
    let cluster = |i: usize| {
        let (stops, weight) = if i == 1 || i == 2 { (9, 17_000) } else { (17, 9_000) };
        first += stops;
        (first - stops, stops, weight)
    };
    (0..16).map(cluster).collect()
}

/// The lines that join stop 0 to the first stop of each other cluster, the rounds, and five heavier lines beside one of a
/// round, by which the search comes to limit 134,100 and finds it too low. The two smaller clusters, of 136,000 without the
/// last line of a round and joined by 132,429, are each one below twice the best limit, 134,215; so both are in one bunch,
/// which becomes a part.
fn crowded() -> Graph {
    let join = |(i, cluster): (usize, &(usize, usize, u64))| {
        (0, cluster.0, if i == 1 || i == 2 { 132_429 } else { 134_000 })
    };
    let round = |&(first, stops, weight): &(usize, usize, u64)| {
        (0..stops).map(move |v| (first + v, first + (v + 1) % stops, weight)).collect::<Vec<_>>()
    };
    let clusters = clusters();
    let mut edges: Vec<_> = clusters.iter().enumerate().skip(1).map(join).collect();
    edges.extend(clusters.iter().flat_map(round));
    edges.extend([1_000_000, 1_000_000, 1_000_000, 1_000_000, 127_542].map(|w| (0, 1, w)));
    Graph::new(256, &edges)
}

/// On 256 stops the ratio is at least 7.01: sixteen crews could walk the rounds, 153,000 each.
#[test]
fn no_factor_of_seven_would_do() {
    let graph = crowded();
    let ours = our_longest(Kind::Unrooted, &graph, 16);
    assert_eq!(ours, Some(2 * (4 * 134_215 - 2)));
    let mut come_to = Vec::new();
    let mut at = 15;
    for (first, count, _) in clusters() {
        let round: Vec<usize> = (at..at + count).collect();
        let stops = stops_of(&graph, first, &round).expect("a walk");
        assert_eq!((stops[0], stops[count]), (first, first));
        assert_eq!(graph.weight(&round), 153_000);
        come_to.extend(stops);
        at += count;
    }
    assert!((0..256).all(|stop| come_to.contains(&stop)));
    assert!(ours > Some(701 * 1_530) && ours <= Some(8 * 153_000));
}
