//! Forests, components, parts and leftovers worked out by hand, and what holds of all of them.

use reference::cover::Tree;
use reference::distance;
use reference::forest::{by_weight, components, lowest_unjoined, rooted, thin, tops, unrooted};
use reference::graph::Graph;
use reference::made_shapes::{any_weights, graph, POSITIVE, SHAPES};
use reference::random::Random;
use reference::split::split;

type Edges = &'static [(usize, usize, u64)];

/// A square 2-3-4-5 of equal weights with roots 0 and 1 beside it, and an edge between the roots.
const SQUARE: Edges =
    &[(0, 1, 1), (2, 3, 4), (3, 4, 4), (4, 5, 4), (5, 2, 4), (0, 2, 6), (1, 4, 6), (1, 5, 5)];

#[test]
fn edges_are_taken_by_weight_then_number() {
    let graph = Graph::new(6, SQUARE);
    let all: Vec<usize> = (0..8).collect();
    assert_eq!(by_weight(&graph, &all), [0, 1, 2, 3, 4, 7, 5, 6]);
    assert_eq!(by_weight(&graph, &[6, 5, 4, 1]), [1, 4, 5, 6]);
}

#[test]
fn forests_by_hand() {
    // Roots, limit, kept edges, lowest vertex of each vertex's tree, lowest vertex joined to no root.
    type Row = (usize, u64, &'static [usize], [usize; 6], Option<usize>);
    let rows: [Row; 8] = [
        (2, 0, &[], [0, 1, 2, 3, 4, 5], Some(2)),
        (2, 1, &[], [0, 1, 2, 3, 4, 5], Some(2)),
        (2, 4, &[1, 2, 3], [0, 1, 2, 2, 2, 2], Some(2)),
        (2, 5, &[1, 2, 3, 7], [0, 1, 1, 1, 1, 1], None),
        (1, 5, &[0, 1, 2, 3, 7], [0; 6], None),
        (0, 0, &[], [0, 1, 2, 3, 4, 5], Some(0)),
        (0, 4, &[0, 1, 2, 3], [0, 0, 2, 2, 2, 2], Some(0)),
        (0, 9, &[0, 1, 2, 3, 7], [0; 6], Some(0)),
    ];
    let graph = Graph::new(6, SQUARE);
    for (k, limit, kept, label, unjoined) in rows {
        let forest = if k == 0 { unrooted(&graph, limit) } else { rooted(&graph, k, limit) };
        assert_eq!(forest.kept, kept, "k {k} limit {limit}");
        assert_eq!(forest.label, label, "k {k} limit {limit}");
        assert_eq!(lowest_unjoined(&forest, k), unjoined, "k {k} limit {limit}");
    }
}

#[test]
fn components_by_hand() {
    let forest = unrooted(&Graph::new(5, &[(3, 1, 2), (4, 0, 2), (1, 3, 1)]), 2);
    assert_eq!(forest.kept, [1, 2]);
    assert_eq!(tops(&forest), [0, 1, 2]);
    assert_eq!(components(&forest), [vec![0, 4], vec![1, 3], vec![2]]);
}

#[test]
fn thinning_by_hand() {
    let graph = Graph::new(6, SQUARE);
    assert_eq!(thin(&graph, &[4, 3, 2, 1]), [1, 2, 3]);
    assert_eq!(thin(&graph, &[0, 5, 1, 2, 3, 7]), [0, 1, 2, 3, 7]);
}

/// Edges, roots, threshold, parts in the order they are split off, and leftovers.
struct Cut {
    name: &'static str,
    edges: Edges,
    roots: &'static [usize],
    threshold: u64,
    parts: &'static [(usize, &'static [usize])],
    left: &'static [&'static [usize]],
}

const CUTS: &[Cut] = &[
    Cut {
        name: "children by edge number, not by vertex",
        edges: &[(0, 3, 2), (0, 1, 2), (0, 2, 2)],
        roots: &[0],
        threshold: 4,
        parts: &[(0, &[0, 1])],
        left: &[&[2]],
    },
    Cut {
        name: "children by edge number, not by weight",
        edges: &[(0, 1, 3), (0, 2, 2), (0, 3, 1)],
        roots: &[0],
        threshold: 5,
        parts: &[(0, &[0, 1])],
        left: &[&[2]],
    },
    Cut {
        name: "a heavy child alone leaves the bunch open",
        edges: &[(0, 1, 2), (0, 2, 5), (0, 3, 2)],
        roots: &[0],
        threshold: 4,
        parts: &[(0, &[1]), (0, &[0, 2])],
        left: &[&[]],
    },
    Cut {
        name: "a weight of exactly the threshold is a part",
        edges: &[(0, 1, 4)],
        roots: &[0],
        threshold: 4,
        parts: &[(0, &[0])],
        left: &[&[]],
    },
    Cut {
        name: "one less is left over",
        edges: &[(0, 1, 3)],
        roots: &[0],
        threshold: 4,
        parts: &[],
        left: &[&[0]],
    },
    Cut {
        name: "the child's own vertex comes first, whatever the edge numbers",
        edges: &[(0, 1, 2), (1, 2, 5), (0, 3, 5), (1, 4, 1)],
        roots: &[0],
        threshold: 5,
        parts: &[(1, &[1]), (0, &[2])],
        left: &[&[0, 3]],
    },
    Cut {
        name: "what is left below counts with the child's edge",
        edges: &[(2, 3, 2), (1, 2, 1), (0, 1, 1)],
        roots: &[0],
        threshold: 3,
        parts: &[(1, &[0, 1])],
        left: &[&[2]],
    },
    Cut {
        name: "the bunch starts afresh after a part",
        edges: &[(0, 1, 3), (0, 2, 3), (0, 3, 3), (0, 4, 3), (0, 5, 3)],
        roots: &[0],
        threshold: 5,
        parts: &[(0, &[0, 1]), (0, &[2, 3])],
        left: &[&[4]],
    },
    Cut {
        name: "what is left at an inner vertex, two deep, goes up with its edge",
        edges: &[(0, 1, 1), (1, 2, 2), (1, 3, 2), (1, 4, 2), (0, 5, 1)],
        roots: &[0],
        threshold: 4,
        parts: &[(1, &[1, 2]), (0, &[0, 3, 4])],
        left: &[&[]],
    },
    Cut {
        name: "two roots, each with its own leftover",
        edges: &[(0, 2, 1), (1, 3, 4), (3, 4, 1), (1, 5, 2)],
        roots: &[0, 1],
        threshold: 5,
        parts: &[(1, &[1, 2])],
        left: &[&[0], &[3]],
    },
    Cut {
        name: "threshold 0 splits nothing",
        edges: &[(0, 1, 1), (1, 2, 1)],
        roots: &[0],
        threshold: 0,
        parts: &[],
        left: &[&[0, 1]],
    },
    Cut {
        name: "no edges",
        edges: &[],
        roots: &[0, 1],
        threshold: 1,
        parts: &[],
        left: &[&[], &[]],
    },
];

#[test]
fn parts_and_leftovers_by_hand() {
    for cut in CUTS {
        let graph = Graph::new(6, cut.edges);
        let kept: Vec<usize> = (0..cut.edges.len()).collect();
        let found = split(&graph, &kept, cut.roots, cut.threshold);
        let part = |&(start, edges): &(usize, &[usize])| Tree::new(start, edges.to_vec());
        let parts: Vec<Tree> = cut.parts.iter().map(part).collect();
        let left: Vec<Vec<usize>> = found.left.iter().map(|tree| tree.edges.clone()).collect();
        assert_eq!(found.parts, parts, "{}", cut.name);
        assert_eq!(left, cut.left, "{}", cut.name);
    }
}

#[test]
fn parts_lie_between_the_threshold_and_twice_it() {
    let mut random = Random::new(3);
    for _ in 0..2000 {
        let (n, m) = (random.between(2, 12), random.between(1, 20));
        let graph = random.any_graph(n, m, 9);
        let limit = random.between(1, 20) as u64;
        let forest = unrooted(&graph, limit);
        let threshold = limit * random.between(1, 2) as u64;
        let found = split(&graph, &forest.kept, &tops(&forest), threshold);
        for part in &found.parts {
            let weight = graph.weight(&part.edges);
            assert!(threshold <= weight && weight < 2 * threshold);
            assert!(reference::check::is_tree(&graph, part));
        }
        for left in &found.left {
            assert!(graph.weight(&left.edges) < threshold);
            assert!(reference::check::is_tree(&graph, left));
        }
        let pieces = found.parts.iter().chain(&found.left);
        let mut edges: Vec<usize> = pieces.flat_map(|tree| tree.edges.clone()).collect();
        edges.sort_unstable();
        assert_eq!(edges, forest.kept);
    }
}

#[test]
fn forests_are_lightest_among_all_that_join_as_much() {
    let mut random = Random::new(4);
    for _ in 0..500 {
        let (n, m) = (random.between(2, 6), random.between(1, 8));
        let graph = random.any_graph(n, m, 4);
        let forest = unrooted(&graph, 4);
        let pieces = components(&forest).len();
        for set in 0usize..1 << m {
            let edges: Vec<usize> = (0..m).filter(|e| set >> e & 1 == 1).collect();
            if n - thin(&graph, &edges).len() == pieces {
                assert!(graph.weight(&forest.kept) <= graph.weight(&edges));
            }
        }
    }
}

#[test]
fn distances_by_hand() {
    let graph = Graph::new(5, &[(0, 1, 7), (0, 2, 2), (2, 1, 3), (1, 3, 1), (0, 1, 6)]);
    assert_eq!(distance::from(&graph, 0), [Some(0), Some(5), Some(2), Some(6), None]);
    assert_eq!(distance::from(&graph, 4), [None, None, None, None, Some(0)]);
    let from_0 = distance::from(&graph, 0);
    assert_eq!(distance::closest(&from_0, &[1, 3]), Some((5, 1)));
    assert_eq!(distance::closest(&from_0, &[4]), None);
    assert_eq!(distance::path(&graph, 0, 3), [3, 2, 1]);
}

#[test]
fn distances_from_roots_by_hand() {
    let graph = Graph::new(5, &[(0, 2, 3), (2, 3, 3), (1, 3, 5), (3, 2, 9)]);
    let due =
        [[Some(0), Some(11), Some(3), Some(6), None], [Some(11), Some(0), Some(8), Some(5), None]];
    assert_eq!(distance::from_roots(&graph, 2), due);
    // The limit, the kept edges and the lowest vertex joined to no root.
    for (limit, kept, unjoined) in [(2, &[][..], 2), (3, &[0, 1], 4)] {
        let forest = rooted(&graph, 2, limit);
        assert_eq!((&forest.kept[..], lowest_unjoined(&forest, 2)), (kept, Some(unjoined)));
    }
}

/// Asserts that edges walked back from a vertex lead to the root and come to no vertex twice.
fn assert_leads_back(graph: &Graph, root: usize, vertex: usize, path: &[usize]) {
    let mut stops = vec![vertex];
    for &e in path {
        let (edge, here) = (graph.edges[e], stops[stops.len() - 1]);
        assert!(here == edge.a || here == edge.b, "from {root} to {vertex} of {graph:?}");
        stops.push(edge.a + edge.b - here);
    }
    assert_eq!(stops.last(), Some(&root), "to {vertex} of {graph:?}");
    stops.sort_unstable();
    assert!(stops.windows(2).all(|pair| pair[0] < pair[1]), "from {root} to {vertex}: {path:?}");
}

#[test]
fn paths_walked_back_weigh_the_distances() {
    let mut random = Random::new(61);
    let (mut unreached, mut as_near) = (0, 0);
    for turn in 0..20 {
        for shape in SHAPES {
            let n = random.between(1, if turn == 0 { 256 } else { 40 });
            let k = random.between(1, n.min(5));
            let weights = any_weights(&mut random, &POSITIVE);
            let graph = graph(&mut random, shape, n, k, weights);
            for (root, from_root) in distance::from_roots(&graph, k).iter().enumerate() {
                assert_eq!(from_root[root], Some(0));
                for (v, due) in from_root.iter().enumerate() {
                    let Some(due) = *due else {
                        unreached += 1;
                        continue;
                    };
                    let path = distance::path(&graph, root, v);
                    assert_eq!(graph.weight(&path), due, "{shape:?}: {root} to {v} of {graph:?}");
                    assert_leads_back(&graph, root, v, &path);
                    as_near += usize::from(v != root && due == 0);
                }
            }
        }
    }
    assert!(unreached > 1_000, "{unreached} vertices without a distance");
    assert!(as_near > 1_000, "{as_near} vertices as near as the root itself");
}
