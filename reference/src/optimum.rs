//! The least heaviest weight over every cover, by looking at all of them; for small graphs only.

use crate::check::is_tree;
use crate::cover::Tree;
use crate::graph::Graph;
use crate::question::Kind;
use crate::vans::Crews;

/// A tree, or a walk, as seen from outside: the set of vertices it covers, as bits, and its weight, or length.
pub type Shape = (usize, u64);

/// Every tree of the graph: each vertex alone, and each set of edges that is a tree.
pub fn all_trees(graph: &Graph) -> Vec<Shape> {
    let mut shapes: Vec<Shape> = (0..graph.n).map(|v| (1 << v, 0)).collect();
    for set in 1usize..1 << graph.edges.len() {
        let in_set = |e: &usize| set >> e & 1 == 1;
        let edges: Vec<usize> = (0..graph.edges.len()).filter(in_set).collect();
        let start = graph.edges[edges[0]].a;
        let tree = Tree { start, edges };
        if is_tree(graph, &tree) {
            let covered = tree.vertices(graph).iter().map(|&v| 1usize << v).sum();
            shapes.push((covered, graph.weight(&tree.edges)));
        }
    }
    shapes
}

/// The least heaviest weight of any cover of the kind by these trees, or nothing where there is none.
pub fn optimum(kind: Kind, graph: &Graph, crews: impl Crews) -> Option<u64> {
    let (shapes, roots) = (all_trees(graph), crews.roots());
    least_heaviest(kind, graph.n, roots.len(), |j| {
        let fits = |shape: &&Shape| kind == Kind::Unrooted || shape.0 >> roots[j] & 1 == 1;
        shapes.iter().filter(fits).copied().collect()
    })
}

/// The least heaviest weight of k shapes that together cover n vertices, shape j being one of the choices for j;
/// without roots of at most k shapes. Nothing where there are none.
pub fn least_heaviest(
    kind: Kind,
    n: usize,
    k: usize,
    choices: impl Fn(usize) -> Vec<Shape>,
) -> Option<u64> {
    let mut reach: Vec<Option<u64>> = vec![None; 1 << n];
    reach[0] = Some(0);
    for j in 0..k {
        let with = add_shape(&reach, &choices(j));
        reach = match kind {
            Kind::Rooted => with,
            Kind::Unrooted => (0..reach.len()).map(|s| lesser(reach[s], with[s])).collect(),
        };
    }
    reach[(1 << n) - 1]
}

/// For each vertex set, the least heaviest weight after one more shape among the choices.
fn add_shape(reach: &[Option<u64>], choices: &[Shape]) -> Vec<Option<u64>> {
    let mut with = vec![None; reach.len()];
    for (set, heaviest) in reach.iter().enumerate() {
        let Some(heaviest) = *heaviest else { continue };
        for &(covered, weight) in choices {
            let place = &mut with[set | covered];
            *place = lesser(*place, Some(heaviest.max(weight)));
        }
    }
    with
}

/// The lesser of two weights where there are two.
fn lesser(one: Option<u64>, other: Option<u64>) -> Option<u64> {
    match (one, other) {
        (Some(a), Some(b)) => Some(a.min(b)),
        _ => one.or(other),
    }
}
