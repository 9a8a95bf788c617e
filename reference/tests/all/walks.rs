//! The closed walk of a tree against the document's sentences: of all sequences of crossings exactly one keeps them.

use crate::common::crossings::{each_sequence, keeps, stops_of};
use crate::common::N;
use reference::check::is_tree;
use reference::cover::Tree;
use reference::graph::Graph;
use reference::random::Random;
use reference::walk::{closed_walk, Walk};

/// Every tree of a graph, from every start.
fn every_tree(graph: &Graph) -> Vec<Tree> {
    let m = graph.edges.len();
    let edges = |set: usize| (0..m).filter(|e| set >> e & 1 == 1).collect();
    let pairs = (0..graph.n).flat_map(|start| (0..1usize << m).map(move |set| (start, set)));
    let trees = pairs.map(|(start, set)| Tree::new(start, edges(set)));
    trees.filter(|tree| is_tree(graph, tree)).collect()
}

/// Every graph of n vertices and m edges, several between a pair too; edge e weighs two to the power e.
fn every_graph(n: usize, m: usize) -> Vec<Graph> {
    let pairs: Vec<(usize, usize)> = (0..n).flat_map(|b| (0..b).map(move |a| (a, b))).collect();
    let graph = |code: usize| {
        let edge = |e: usize| {
            let (a, b) = pairs[code / pairs.len().pow(e as u32) % pairs.len()];
            (if e % 2 == 0 { (a, b) } else { (b, a) }, 1 << e)
        };
        let edges: Vec<_> = (0..m).map(edge).map(|((a, b), weight)| (a, b, weight)).collect();
        Graph::new(n, &edges)
    };
    (0..pairs.len().pow(m as u32)).map(graph).collect()
}

/// Of every sequence of at most 2q crossings from the start exactly one keeps the rule, and it is the walk's.
fn assert_only(graph: &Graph, tree: &Tree) {
    let q = tree.edges.len();
    let mut kept = Vec::new();
    each_sequence(graph, tree.start, 2 * q, &mut |crossings| {
        if keeps(graph, tree, crossings) {
            kept.push(crossings.to_vec());
        }
    });
    let Walk { stops, crossings } = closed_walk(graph, tree);
    assert_eq!(kept, [&crossings[..]], "{tree:?} {graph:?}");
    assert_eq!(stops_of(graph, tree.start, &crossings), Some(stops));
    let length = Walk { stops: vec![], crossings }.length(graph);
    assert_eq!(length, 2 * graph.weight(&tree.edges));
}

#[test]
fn every_tree_of_every_small_graph_has_one_walk() {
    let mut trees = 0;
    for (n, m) in (1..=4).flat_map(|n| (0..=5).map(move |m| (n, m))) {
        for graph in every_graph(n, m) {
            let all = every_tree(&graph);
            all.iter().for_each(|tree| assert_only(&graph, tree));
            trees += all.len();
        }
    }
    assert!(trees > 40_000, "{trees}");
}

#[test]
fn every_tree_of_some_larger_graphs_has_one_walk() {
    let mut random = Random::new(61);
    let mut full = 0;
    for _ in 0..40 {
        let m = random.between(4, 7);
        let graph = random.any_graph(5, m, 9);
        for tree in every_tree(&graph) {
            assert_only(&graph, &tree);
            full += usize::from(tree.edges.len() == 4);
        }
    }
    assert!(full > 500, "{full}");
}

/// Name, vertices, edges (end, end, weight), the tree's start and edges, and the stops of its walk.
type Row = (
    &'static str,
    usize,
    &'static [(usize, usize, u64)],
    usize,
    &'static [usize],
    &'static [usize],
);

/// Trees on which a tempting mistake would show, worked out by hand.
const ROWS: &[Row] = &[
    ("sheet N, tree 0", 4, N, 0, &[0, 1], &[0, 2, 3, 2, 0]),
    ("sheet N, tree 1", 4, N, 1, &[], &[1]),
    (
        "by the lowest edge, not to the lowest vertex",
        3,
        &[(0, 2, 1), (0, 1, 1)],
        0,
        &[0, 1],
        &[0, 2, 0, 1, 0],
    ),
    (
        "from the start, not from the lowest vertex",
        3,
        &[(0, 1, 1), (1, 2, 1)],
        1,
        &[0, 1],
        &[1, 0, 1, 2, 1],
    ),
    (
        "what is behind an edge before the next edge",
        4,
        &[(0, 1, 1), (0, 2, 1), (1, 3, 1)],
        0,
        &[0, 1, 2],
        &[0, 1, 3, 1, 0, 2, 0],
    ),
    (
        "back by the edge of arrival, though others are lower",
        4,
        &[(1, 2, 1), (1, 3, 1), (0, 1, 1)],
        0,
        &[0, 1, 2],
        &[0, 1, 2, 1, 3, 1, 0],
    ),
    (
        "by edges of the tree only",
        3,
        &[(0, 1, 1), (1, 2, 1), (0, 2, 1)],
        0,
        &[1, 2],
        &[0, 2, 1, 2, 0],
    ),
    ("of two edges between a pair the tree's own", 2, &[(0, 1, 5), (1, 0, 7)], 0, &[1], &[0, 1, 0]),
];

#[test]
fn walks_worked_out_by_hand() {
    for &(name, n, edges, start, lines, stops) in ROWS {
        let (graph, tree) = (Graph::new(n, edges), Tree::new(start, lines.to_vec()));
        let walk = closed_walk(&graph, &tree);
        assert_eq!(walk.stops, stops, "{name}");
        assert!(keeps(&graph, &tree, &walk.crossings), "{name}");
        assert_eq!(walk, by(&graph, &tree, |edge, _| edge), "{name}");
    }
}

/// The walk that takes the edges at each vertex in the order of a key of the edge and its other end.
fn by(graph: &Graph, tree: &Tree, key: fn(usize, usize) -> usize) -> Walk {
    let mut around = graph.around(&tree.edges);
    around.iter_mut().for_each(|ways| ways.sort_by_key(|way| key(way.0, way.1)));
    let mut walk = Walk { stops: vec![tree.start], crossings: vec![] };
    below(&around, tree.start, None, &mut walk);
    walk
}

/// Goes over everything behind a vertex and comes back to it.
fn below(around: &[Vec<(usize, usize)>], here: usize, above: Option<usize>, walk: &mut Walk) {
    for &(edge, other) in around[here].iter().filter(|way| Some(way.0) != above) {
        walk.crossings.push(edge);
        walk.stops.push(other);
        below(around, other, Some(edge), walk);
        walk.crossings.push(edge);
        walk.stops.push(here);
    }
}

/// The walk without its last crossing.
fn one_stop_short(graph: &Graph, tree: &Tree) -> Walk {
    let mut walk = closed_walk(graph, tree);
    walk.stops.pop();
    walk.crossings.pop();
    walk
}

/// Every vertex and every edge where the walk first comes to it, and no way back.
fn each_edge_once(graph: &Graph, tree: &Tree) -> Walk {
    let Walk { stops, crossings } = closed_walk(graph, tree);
    let first = |list: Vec<usize>| {
        let is_first = |i: &usize| !list[..*i].contains(&list[*i]);
        (0..list.len()).filter(is_first).map(|i| list[i]).collect()
    };
    Walk { stops: first(stops), crossings: first(crossings) }
}

/// The walk of the tree started at its lowest vertex.
fn from_the_lowest(graph: &Graph, tree: &Tree) -> Walk {
    closed_walk(graph, &Tree::new(tree.vertices(graph)[0], tree.edges.clone()))
}

/// The walk of the tree that the lowest edges of the whole graph make between its vertices.
fn by_any_edge(graph: &Graph, tree: &Tree) -> Walk {
    let inside = tree.vertices(graph);
    let mut lines: Vec<usize> = Vec::new();
    for (e, edge) in graph.edges.iter().enumerate() {
        let with = Tree::new(edge.a, [&lines[..], &[e]].concat());
        if inside.contains(&edge.a) && inside.contains(&edge.b) && is_tree(graph, &with) {
            lines = with.edges;
        }
    }
    closed_walk(graph, &Tree::new(tree.start, lines))
}

/// The name of a tempting mistake, and the walk that it makes of a tree.
type Wrong = (&'static str, fn(&Graph, &Tree) -> Walk);

const WRONG: [Wrong; 6] = [
    ("the highest edge first", |graph, tree| by(graph, tree, |edge, _| usize::MAX - edge)),
    ("the lowest vertex first", |graph, tree| by(graph, tree, |_, other| other)),
    ("one stop short", one_stop_short),
    ("each edge once", each_edge_once),
    ("from the lowest vertex", from_the_lowest),
    ("by any edge of the graph", by_any_edge),
];

#[test]
fn wrong_walks_are_told_apart() {
    for (name, wrong) in WRONG {
        let mut apart = 0;
        for &(_, n, edges, start, lines, stops) in ROWS {
            let (graph, tree) = (Graph::new(n, edges), Tree::new(start, lines.to_vec()));
            let walk = wrong(&graph, &tree);
            apart += usize::from(walk.stops != stops);
            let right = walk.crossings == closed_walk(&graph, &tree).crossings;
            assert_eq!(keeps(&graph, &tree, &walk.crossings), right, "{name}");
        }
        assert!(apart > 0, "{name}");
    }
}
