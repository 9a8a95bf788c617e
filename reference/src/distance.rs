//! Distances from a vertex: the least weight of a path, or none where no path leads; and one path of that weight.

use crate::graph::Graph;
use crate::vans::Crews;

/// What a search from a vertex finds of every vertex: its distance, and the last edge of a shortest path to it with the
/// vertex before that edge.
struct Search {
    distance: Vec<Option<u64>>,
    last: Vec<Option<(usize, usize)>>,
}

/// Settles the vertices one by one, the nearest first.
fn search(graph: &Graph, source: usize) -> Search {
    let all: Vec<usize> = (0..graph.edges.len()).collect();
    let around = graph.around(&all);
    let mut found = Search { distance: vec![None; graph.n], last: vec![None; graph.n] };
    let mut settled = vec![false; graph.n];
    found.distance[source] = Some(0);
    while let Some((near, vertex)) = nearest(&found.distance, &settled) {
        settled[vertex] = true;
        for &(edge, other) in &around[vertex] {
            let through = near + graph.edges[edge].weight;
            if found.distance[other].is_none_or(|known| through < known) {
                found.distance[other] = Some(through);
                found.last[other] = Some((edge, vertex));
            }
        }
    }
    found
}

/// The nearest vertex reached and not settled.
fn nearest(distance: &[Option<u64>], settled: &[bool]) -> Option<(u64, usize)> {
    let open = |v: usize| match (distance[v], settled[v]) {
        (Some(d), false) => Some((d, v)),
        _ => None,
    };
    (0..distance.len()).filter_map(open).min()
}

/// The distance from one vertex to every vertex.
pub fn from(graph: &Graph, source: usize) -> Vec<Option<u64>> {
    search(graph, source).distance
}

/// The distances from each of the roots.
pub fn from_roots(graph: &Graph, crews: impl Crews) -> Vec<Vec<Option<u64>>> {
    crews.roots().into_iter().map(|root| from(graph, root)).collect()
}

/// The nearest of some vertices, the lowest among equals, with its distance.
pub fn closest(distance: &[Option<u64>], vertices: &[usize]) -> Option<(u64, usize)> {
    let reached = |&v: &usize| distance[v].map(|d| (d, v));
    vertices.iter().filter_map(reached).min()
}

/// The edges of one shortest path from a vertex to one that has a distance from it, walked back from there.
///
/// Each step goes to a vertex that was settled earlier. So the path comes to no vertex twice and leads to the source, though
/// other vertices may be as near to it and edges may weigh nothing.
pub fn path(graph: &Graph, source: usize, target: usize) -> Vec<usize> {
    let last = search(graph, source).last;
    let mut path = Vec::new();
    let mut vertex = target;
    while let Some((edge, before)) = last[vertex] {
        path.push(edge);
        vertex = before;
    }
    path
}
