//! Shortest paths that hold wanted edges: against a list of all paths on small graphs, and on a weightless grid where there are
//! too many to try.

use crate::common::replies::all_paths;
use reference::distance::from;
use reference::graph::Graph;
use reference::judge_path::Paths;
use reference::random::Random;

#[test]
fn a_path_is_found_exactly_when_one_is_listed() {
    let mut random = Random::new(48);
    let mut met = [0; 2];
    for _ in 0..20_000 {
        let (n, m) = (random.between(2, 6), random.between(1, 9));
        let graph = random.gated_graph(n, m, 2);
        let root = random.below(n);
        let (spared, share) = (random.below(5), random.between(1, 6));
        let edges: Vec<usize> = (0..m).filter(|_| random.below(5) >= spared).collect();
        let wanted: Vec<usize> =
            edges.iter().copied().filter(|_| random.below(8) < share).take(4).collect();
        let distance = from(&graph, root);
        let listed = all_paths(&graph, root);
        for target in 0..n {
            let is_such = |(weight, last, path): &(u64, usize, Vec<usize>)| {
                (*last, Some(*weight)) == (target, distance[target])
                    && path.iter().all(|e| edges.contains(e))
                    && wanted.iter().all(|e| path.contains(e))
            };
            let due = listed.iter().any(is_such);
            let said = Paths::new(&graph, root, &distance, &edges, &wanted).lead_to(target);
            assert_eq!(said, due, "{root} to {target} by {edges:?}, {wanted:?} of {graph:?}");
            met[usize::from(due)] += usize::from(!wanted.is_empty());
        }
    }
    assert!(met.iter().all(|&count| count > 2_000), "{met:?}");
}

/// Two weightless grids of 7 by 7 vertices, 0 to 48 and 49 to 97, joined by an edge from 24, the first one's middle, to 49;
/// and three vertices more, each with an edge to vertex 10, 38 or 40.
fn grids() -> Graph {
    let mut edges = Vec::new();
    for v in 0..98 {
        let (row, column) = (v % 49 / 7, v % 7);
        edges.extend((column < 6).then_some((v, v + 1, 0)));
        edges.extend((row < 6).then_some((v, v + 7, 0)));
    }
    edges.extend([(24, 49, 0), (98, 10, 0), (38, 99, 0), (40, 100, 0)]);
    Graph::new(101, &edges)
}

#[test]
fn where_there_are_too_many_each_wanted_edge_is_looked_at() {
    let graph = grids();
    let edges: Vec<usize> = (0..graph.edges.len()).collect();
    let distance = from(&graph, 0);
    // From vertex 0 to vertex 48, the opposite corner: name, the ends of the wanted edges, and what is said.
    type Row = (&'static str, &'static [(usize, usize)], bool);
    let rows: [Row; 8] = [
        ("none", &[], true),
        ("one", &[(24, 25)], true),
        ("three far apart", &[(5, 6), (22, 29), (42, 43)], true),
        ("one to a dead end", &[(98, 10)], false),
        ("several to dead ends", &[(98, 10), (38, 99), (40, 100)], false),
        ("three at one vertex", &[(24, 25), (24, 31), (17, 24)], false),
        ("the only way to the other grid", &[(24, 49)], false),
        // No path comes back from there, but which ones do not go there at all are too many to try.
        ("one in the other grid", &[(70, 71)], true),
    ];
    for (name, ends, due) in rows {
        let is_wanted = |&e: &usize| ends.contains(&(graph.edges[e].a, graph.edges[e].b));
        let wanted: Vec<usize> = edges.iter().copied().filter(is_wanted).collect();
        assert_eq!(wanted.len(), ends.len(), "{name}");
        let said = Paths::new(&graph, 0, &distance, &edges, &wanted).lead_to(48);
        assert_eq!(said, due, "{name}");
    }
}
