//! Records with a list of vans: by hand, beside graphs of every shape, beside a list of classes and beside an unrooted
//! question. The wrong lists are in `made_wrong_vans`, up to 32 vans on the smallest and the largest graphs in
//! `made_many_vans`.

use crate::best;
use crate::cover::{encode as cover_bytes, Tree};
use crate::districts::Record;
use crate::graph::{sheet, Graph};
use crate::made_filings::{changed_fields, changed_trees};
use crate::made_gates::{BESIDE, BEYOND, FARTHER, FOOTBRIDGE, LEFT, SHARED};
use crate::made_many_vans::many_vans;
use crate::made_records::{around_best, at, best_of, check_of};
use crate::made_shapes::{any_weights, ends, graph, shuffled, weighed, Shape, Weights};
use crate::made_shapes::{CHAIN, CROWD, LOOP, POSITIVE, SHAPES};
use crate::made_surfaces::right_list;
use crate::made_trials::turns;
use crate::made_wrong_vans::wrong_vans;
use crate::question::Kind;
use crate::random::Random;
use crate::rooted::plan;
use crate::split::split;
use crate::surface::adjust;
use crate::vans::bytes;

/// A graph by hand with lists of vans: vertices, edges (end, end, weight), lists.
type Manned = (usize, &'static [(usize, usize, u64)], &'static [&'static [usize]]);

/// Graphs and lists on which a wrong reading of the list would show.
const BY_HAND: [Manned; 19] = [
    (2, &[(0, 1, 5)], &[&[0, 0], &[1, 1], &[1, 0], &[0, 1], &[1, 0, 1]]),
    // Three parts at the middle, or one left to the first van there, or to that at an end.
    (
        4,
        &[(0, 1, 5), (0, 2, 5), (0, 3, 5)],
        &[&[0, 0], &[0, 0, 0], &[0], &[3, 1, 2, 1], &[1, 0, 0]],
    ),
    // A part, and beside it something left, at one vertex.
    (3, &[(0, 1, 5), (0, 2, 3)], &[&[0, 0], &[0, 0, 0], &[2, 0, 0], &[2, 2]]),
    (3, &[(0, 1, 2), (1, 2, 2)], &[&[2], &[2, 2], &[1, 1]]),
    (
        4,
        &[(0, 2, 3), (2, 3, 3), (1, 3, 5)],
        &[&[3, 0], &[0, 3], &[3, 3], &[3, 2], &[1, 0], &[3, 3, 3, 3, 3]],
    ),
    // Vertices without edges, and some that no van is joined to.
    (3, &[(1, 2, 4)], &[&[2, 2], &[0, 2, 2]]),
    (5, &[(3, 4, 2), (4, 2, 2), (2, 3, 2)], &[&[4, 4, 0, 1]]),
    // Four parts near two vertices: D counts two vans at either, or three.
    (
        6,
        &[(0, 2, 9), (0, 3, 9), (0, 4, 9), (0, 5, 9), (0, 1, 1)],
        &[&[1, 1], &[0, 1, 1], &[1, 0, 1]],
    ),
    // Two far groups of parts, each near one vertex with vans.
    (
        8,
        &[(0, 1, 6), (0, 2, 6), (0, 3, 6), (4, 5, 6), (4, 6, 6), (4, 7, 6), (0, 4, 20)],
        &[&[0, 0, 4, 4], &[0, 4, 4, 4, 4], &[4, 4, 4, 0, 0, 0], &[7, 4, 4, 0, 4, 7]],
    ),
    (4, CHAIN, &[&[3, 0], &[0, 0, 1], &[1, 1]]),
    (7, LOOP, &[&[0, 1, 1], &[1, 0, 0]]),
    (9, CROWD, &[&[0, 1, 2, 0]]),
    // Weightless edges, which are left at limit 0.
    (4, &[(0, 1, 0), (1, 2, 0), (3, 2, 0)], &[&[2, 2], &[0, 3, 3], &[1, 1, 1]]),
    (FOOTBRIDGE.0, FOOTBRIDGE.1, &[&[3, 0, 0], &[2, 3, 1, 1]]),
    (SHARED.0, SHARED.1, &[&[0, 0], &[1, 0, 1], &[2, 2]]),
    (FARTHER.0, FARTHER.1, &[&[1, 1], &[0, 1, 1]]),
    (BESIDE.0, BESIDE.1, &[&[0, 0, 1]]),
    (BEYOND.0, BEYOND.1, &[&[0, 0], &[1, 1, 0]]),
    (LEFT.0, LEFT.1, &[&[0, 0], &[3, 3, 3]]),
];

/// Every record with a list of vans.
pub fn listed_vans() -> Vec<Record> {
    let mut random = Random::new(55);
    let mut all = Vec::new();
    for (n, edges, lists) in BY_HAND {
        for vans in lists {
            all.extend(in_every_way(&mut random, &Graph::new(n, edges), vans));
        }
    }
    all.extend(changed_by_a_line(&mut random));
    all.extend(on_two_sides());
    all.extend(far_from_the_lowest(&mut random));
    all.extend(wrong_vans());
    for turn in 0..2 {
        SHAPES.iter().for_each(|&shape| all.extend(made(&mut random, shape, turn)));
    }
    SHAPES.iter().for_each(|&shape| all.extend(beside_classes(&mut random, shape)));
    SHAPES.iter().for_each(|&shape| all.extend(unread(&mut random, shape)));
    all.extend(one_part_too_many());
    all.extend(at_stop_40(&mut random));
    all.extend(many_vans(&mut random));
    all
}

/// Trials next to every limit where the reply changes, from the last that leaves a vertex unjoined on; the best limit; checks.
fn in_every_way(random: &mut Random, graph: &Graph, vans: &[usize]) -> Vec<Record> {
    let (sheet, k) = (graph.to_sheet(), vans.len());
    let limits: Vec<u64> = turns(Kind::Rooted, graph, vans).into_iter().collect();
    let is_unjoined = |limit: &u64| plan(graph, vans, *limit).is_err();
    let first = limits.iter().rposition(is_unjoined).unwrap_or(0);
    let trials = limits[first..].iter().map(|&limit| at(Kind::Rooted, k, limit, &sheet));
    let mut all: Vec<Record> = trials.collect();
    all.push(best_of(Kind::Rooted, k, &sheet));
    all.extend(checks(random, graph, vans));
    put(all, vans)
}

/// Checks of covers from two vans at one vertex with any one edge more or less in either tree.
fn changed_by_a_line(random: &mut Random) -> Vec<Record> {
    let mut all = Vec::new();
    for (n, edges, vans) in
        [(BY_HAND[0].0, BY_HAND[0].1, [1, 1]), (BY_HAND[4].0, BY_HAND[4].1, [3, 3])]
    {
        let graph = Graph::new(n, edges);
        let (_, trees) = best::search(Kind::Rooted, &graph, &vans[..]).expect("a cover");
        let covers = changed_trees(random, &graph, &trees);
        let sheet = graph.to_sheet();
        let check = |cover| check_of(Kind::Rooted, 2, &sheet, cover);
        all.extend(put(covers.into_iter().map(check).collect(), &vans));
    }
    all
}

/// The best limit, trials around it, the check of its cover and of one of the others.
fn around(random: &mut Random, graph: &Graph, vans: &[usize]) -> Vec<Record> {
    let (sheet, k) = (graph.to_sheet(), vans.len());
    let mut all = vec![best_of(Kind::Rooted, k, &sheet)];
    let Some((limit, _)) = best::search(Kind::Rooted, graph, vans) else {
        all.push(at(Kind::Rooted, k, graph.total(), &sheet));
        return put(all, vans);
    };
    let limits = limit.saturating_sub(1)..=limit + 1;
    all.extend(limits.map(|limit| at(Kind::Rooted, k, limit, &sheet)));
    let mut checks = checks(random, graph, vans);
    all.extend(checks.pop());
    if !checks.is_empty() {
        all.push(checks.swap_remove(random.below(checks.len())));
    }
    put(all, vans)
}

/// The same questions with a list of vans.
pub fn put(records: Vec<Record>, vans: &[usize]) -> Vec<Record> {
    let list = bytes(vans);
    records.into_iter().map(|record| record.with_vans(&list)).collect()
}

/// Checks of the best limit's cover with its first start and its last exchanged, or all in order, or with 0 to k - 1 in their
/// place; with a field changed; of the cover that 0 to k - 1 would have; and, last, of the cover as it is.
fn checks(random: &mut Random, graph: &Graph, vans: &[usize]) -> Vec<Record> {
    let Some((_, trees)) = best::search(Kind::Rooted, graph, vans) else { return Vec::new() };
    let (sheet, k) = (graph.to_sheet(), vans.len());
    let good = cover_bytes(&trees);
    let from = |starts: &[usize]| {
        let start = |(tree, &start): (&Tree, &usize)| Tree { start, edges: tree.edges.clone() };
        cover_bytes(&trees.iter().zip(starts).map(start).collect::<Vec<_>>())
    };
    let mut moved = vans.to_vec();
    match random.below(2) {
        0 => moved.swap(0, k - 1),
        _ => moved.sort_unstable(),
    }
    let bad = changed_fields(random, &good);
    let of_row = (k <= graph.n).then(|| best::search(Kind::Rooted, graph, k)).flatten();
    let in_row: Vec<usize> = (0..k).collect();
    let in_row = of_row.map_or(from(&in_row), |(_, trees)| cover_bytes(&trees));
    let mut covers = vec![from(&moved), in_row, bad[random.below(bad.len())].clone()];
    covers.retain(|cover| *cover != good);
    covers.dedup();
    covers.push(good);
    covers.into_iter().map(|cover| check_of(Kind::Rooted, k, &sheet, cover)).collect()
}

/// Vans on n vertices: all at one of them, at two, each at another, or anywhere and perhaps more than there are vertices.
pub fn any_vans(random: &mut Random, n: usize, way: usize) -> Vec<usize> {
    let pair = [random.below(n), random.below(n)];
    match way % 4 {
        0 => vec![pair[0]; random.between(2, 4)],
        1 => (0..random.between(2, 5)).map(|_| pair[random.below(2)]).collect(),
        2 => {
            let k = random.between(1, n.min(5));
            shuffled(random, (0..n).collect()).into_iter().take(k).collect()
        }
        _ => (0..random.between(1, 12)).map(|_| random.below(n)).collect(),
    }
}

/// A made graph of a few vertices.
fn small(random: &mut Random, shape: Shape) -> Graph {
    let n = random.between(3, 9);
    let weights = any_weights(random, &POSITIVE);
    graph(random, shape, n, 2, weights)
}

/// Around the best limits of two lists beside one made graph.
fn made(random: &mut Random, shape: Shape, turn: usize) -> Vec<Record> {
    let graph = small(random, shape);
    let lists = [0, 1].map(|way| any_vans(random, graph.n, 2 * turn + way));
    lists.iter().flat_map(|vans| around(random, &graph, vans)).collect()
}

/// Around the best limit of a made graph with both lists.
fn beside_classes(random: &mut Random, shape: Shape) -> Vec<Record> {
    let n = random.between(3, 7);
    let weights = any_weights(random, &[Weights::Between(1, 9), Weights::Between(5, 8)]);
    let graph = graph(random, shape, n, 2, weights);
    let classes = right_list(random, &graph);
    let way = random.below(4);
    let vans = any_vans(random, n, way);
    let adjusted = adjust(&graph, &classes).expect("a right list");
    let given =
        |record: Record| Record { sheet: graph.to_sheet(), ..record }.with_classes(&classes);
    around(random, &adjusted, &vans).into_iter().map(given).collect()
}

/// An unrooted question with a list that is left unread.
fn unread(random: &mut Random, shape: Shape) -> Vec<Record> {
    let graph = small(random, shape);
    let vans = any_vans(random, graph.n, 3);
    let records = around_best(random, Kind::Unrooted, &graph, vans.len());
    put(records.into_iter().take(3).collect(), &vans)
}

/// Two pairs of vertices with nothing between them: vans on both sides or on one, where 0 to k - 1 are on one or on both.
fn on_two_sides() -> Vec<Record> {
    let sheets = [sheet(4, &[(0, 1, 2), (2, 3, 2)]), sheet(4, &[(0, 2, 2), (3, 1, 2)])];
    let mut all = Vec::new();
    for vans in [&[0, 2][..], &[3, 1], &[0, 3], &[2, 2], &[1, 1, 0], &[2, 0, 2]] {
        for sheet in &sheets {
            let k = vans.len();
            let records = vec![best_of(Kind::Rooted, k, sheet), at(Kind::Rooted, k, 3, sheet)];
            all.extend(put(records, vans));
        }
    }
    all
}

/// Trees whose vans are at their highest vertex: trials that have more parts than vans, or not, where it would be the other way
/// round if the tree were rooted at its lowest vertex; and the best limit.
fn far_from_the_lowest(random: &mut Random) -> Vec<Record> {
    let mut all = Vec::new();
    while all.len() < 24 {
        let (n, k) = (random.between(4, 7), random.between(1, 2));
        let shape = [Shape::Path, Shape::Tree, Shape::Caterpillar][random.below(3)];
        let ends = ends(random, shape, n, 0);
        let graph = Graph::new(n, &weighed(random, ends, Weights::Between(1, 5)));
        let vans = vec![n - 1; k];
        let differs = |limit: &u64| {
            let otherwise = split(&graph, &(0..n - 1).collect::<Vec<_>>(), &[0], *limit);
            let are_many = |parts: &[Tree]| parts.len() > k;
            plan(&graph, &vans, *limit)
                .is_ok_and(|plan| are_many(&plan.parts) != are_many(&otherwise.parts))
        };
        let limits: Vec<u64> = (1..=graph.total()).filter(differs).take(2).collect();
        let trial = |limit| at(Kind::Rooted, k, limit, &graph.to_sheet());
        let mut records: Vec<Record> = limits.into_iter().map(trial).collect();
        if !records.is_empty() {
            records.push(best_of(Kind::Rooted, k, &graph.to_sheet()));
        }
        all.extend(put(records, &vans));
    }
    all
}

/// Parts of weight 5 around vertex 1, which vertex 0 is near, one more than vans near them; and two vans at a far vertex 2,
/// where one part of weight 5 is too. The same with one van more, for which the limit is accepted.
fn one_part_too_many() -> Vec<Record> {
    let mut all = Vec::new();
    for parts in 2..=6 {
        let mut edges = vec![(0, 1, 1), (1, 2, 30), (2, 3, 5)];
        edges.extend((0..parts).map(|i| (1, 4 + i, 5)));
        let bytes = sheet(4 + parts, &edges);
        for vertices in [&[1][..], &[0], &[1, 0]] {
            let vans: Vec<usize> = vertices.iter().copied().cycle().take(parts).collect();
            for near in [parts - 1, parts] {
                let vans = [&[2], &vans[..near], &[2]].concat();
                all.extend(put(vec![at(Kind::Rooted, near + 2, 5, &bytes)], &vans));
            }
        }
    }
    all
}

/// 41 vertices around vertex 40, where two vans are.
fn at_stop_40(random: &mut Random) -> Vec<Record> {
    let star: Vec<(usize, usize, u64)> = (0..40).map(|v| (v, 40, 1 + v as u64 % 7)).collect();
    let graph = Graph::new(41, &star);
    [&[40, 40][..], &[40, 7, 40]].iter().flat_map(|vans| around(random, &graph, vans)).collect()
}
