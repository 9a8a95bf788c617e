//! The check of filed covers against a second reading of its rules, on thousands of random filings.

use crate::common::{filing, BOTH};
use reference::check::check;
use reference::graph::Graph;
use reference::made_filings::along_a_path;
use reference::question::Kind;
use reference::random::Random;

/// The vertices joined to a start by a set of edges, found by spreading until nothing changes.
fn spread(graph: &Graph, start: usize, edges: &[usize]) -> Vec<bool> {
    let mut reached = vec![false; graph.n];
    reached[start] = true;
    for _ in 0..graph.n {
        for &e in edges {
            let edge = graph.edges[e];
            let either = reached[edge.a] || reached[edge.b];
            reached[edge.a] = either;
            reached[edge.b] = either;
        }
    }
    reached
}

/// The answer of the check by counting: joined edges without a loop number one less than vertices.
fn second_check(
    kind: Kind,
    graph: &Graph,
    k: usize,
    starts: &[usize],
    entries: &[(usize, usize)],
) -> Result<u64, u16> {
    let count = if kind == Kind::Rooted { starts.len() == k } else { starts.len() <= k };
    let rooted = kind == Kind::Unrooted || (0..starts.len()).all(|j| starts[j] == j);
    if starts.is_empty() || !count || !rooted || starts.iter().any(|&s| s >= graph.n) {
        return Err(32);
    }
    let m = graph.edges.len();
    let rising = (1..entries.len()).all(|i| entries[i - 1] < entries[i]);
    if !rising || entries.iter().any(|e| e.0 >= starts.len() || e.1 >= m) {
        return Err(33);
    }
    let (mut covered, mut heaviest) = (vec![false; graph.n], 0);
    for (j, &start) in starts.iter().enumerate() {
        let own = entries.iter().filter(|entry| entry.0 == j);
        let edges: Vec<usize> = own.map(|entry| entry.1).collect();
        let reached = spread(graph, start, &edges);
        let vertices = reached.iter().filter(|&&is| is).count();
        let joined = edges.iter().all(|&e| reached[graph.edges[e].a]);
        if !joined || vertices != edges.len() + 1 {
            return Err(34);
        }
        (0..graph.n).for_each(|v| covered[v] |= reached[v]);
        heaviest = heaviest.max(edges.iter().map(|&e| graph.edges[e].weight).sum());
    }
    if covered.contains(&false) {
        return Err(35);
    }
    Ok(heaviest)
}

/// Random starts and entries, mostly in order and mostly existing.
fn random_filing(
    random: &mut Random,
    graph: &Graph,
    k: usize,
) -> (Vec<usize>, Vec<(usize, usize)>) {
    let by_root = random.below(4) > 0;
    let t = if by_root { k } else { random.below(k + 2) };
    let past_the_end = usize::from(random.below(9) == 0);
    let any = |random: &mut Random| random.below(graph.n + past_the_end);
    let starts: Vec<usize> = (0..t).map(|j| if by_root { j } else { any(random) }).collect();
    let mut entries = Vec::new();
    let share = random.between(1, 7);
    for tree in 0..t + usize::from(random.below(20) == 0) {
        for edge in 0..graph.edges.len() + usize::from(random.below(20) == 0) {
            if random.below(8) < share {
                entries.push((tree, edge));
            }
        }
    }
    if entries.len() > 1 && random.below(12) == 0 {
        let place = random.below(entries.len() - 1);
        entries[place + 1] = entries[place];
    }
    if random.below(12) == 0 {
        entries.reverse();
    }
    (starts, entries)
}

#[test]
fn filings_are_answered_as_by_the_second_reading() {
    let mut random = Random::new(41);
    let mut met = [0; 6];
    for _ in 0..200_000 {
        let (n, m) = (random.between(1, 5), random.between(0, 6));
        let graph = random.any_graph(n, m, 9);
        let kind = BOTH[random.below(2)];
        let k = random.between(1, n.min(3));
        let (starts, entries) = random_filing(&mut random, &graph, k);
        let filed = filing(&starts, &entries);
        let answer = check(kind, &graph.to_sheet(), k as u64, &filed);
        let second = second_check(kind, &graph, k, &starts, &entries);
        assert_eq!(answer, second, "{kind:?} k {k} {starts:?} {entries:?} {graph:?}");
        met[answer.err().map_or(0, |number| usize::from(number - 30))] += 1;
    }
    assert_eq!(met[1], 0);
    assert!(met[0].min(met[2]).min(met[3]).min(met[4]).min(met[5]) > 2000, "{met:?}");
}

/// Document 02, A.2: yes exactly when each of the n vertices is covered, for n from 1 to 256, the one left out at every place.
#[test]
fn a_vertex_left_out_is_found_at_every_place() {
    for n in 1..=256 {
        let said = |left_out| {
            let filing = along_a_path(n, left_out);
            check(filing.kind, &filing.sheet, filing.k as u64, &filing.cover)
        };
        assert_eq!(said(None), Ok(n as u64 - 1), "n {n}");
        // The one vertex of n 1 is the start of every tree.
        for v in if n == 1 { 0..0 } else { 0..n } {
            assert_eq!(said(Some(v)), Err(35), "n {n} without {v}");
        }
    }
}
