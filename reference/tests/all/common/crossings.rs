//! Sequences of crossings, all of them, and which of them are walks as the document has them; for small graphs.

use reference::cover::Tree;
use reference::graph::Graph;

/// Looks at every sequence of at most so many crossings from a vertex, whatever edges of the graph they cross.
pub fn each_sequence(graph: &Graph, from: usize, most: usize, look: &mut dyn FnMut(&[usize])) {
    each_longer(graph, from, most, &mut Vec::new(), look);
}

/// Looks at a sequence that has come to a vertex, and at every one that goes on from there.
fn each_longer(
    graph: &Graph,
    here: usize,
    more: usize,
    crossings: &mut Vec<usize>,
    look: &mut dyn FnMut(&[usize]),
) {
    look(crossings);
    if more == 0 {
        return;
    }
    for (e, edge) in graph.edges.iter().enumerate() {
        if here == edge.a || here == edge.b {
            crossings.push(e);
            each_longer(graph, edge.a + edge.b - here, more - 1, crossings, look);
            crossings.pop();
        }
    }
}

/// The vertices that crossings come to from a start, the start first; nothing where one of them begins elsewhere.
pub fn stops_of(graph: &Graph, start: usize, crossings: &[usize]) -> Option<Vec<usize>> {
    let mut stops = vec![start];
    for &e in crossings {
        let (edge, here) = (graph.edges[e], stops[stops.len() - 1]);
        if here != edge.a && here != edge.b {
            return None;
        }
        stops.push(edge.a + edge.b - here);
    }
    Some(stops)
}

/// Whether crossings from a tree's start end there, cross each edge of the tree exactly twice and no other, and are each
/// the one that is due.
pub fn keeps(graph: &Graph, tree: &Tree, crossings: &[usize]) -> bool {
    let times = |e: usize| crossings.iter().filter(|&&crossed| crossed == e).count();
    let due_times = |e: usize| if tree.edges.contains(&e) { 2 } else { 0 };
    if !(0..graph.edges.len()).all(|e| times(e) == due_times(e)) {
        return false;
    }
    let Some(stops) = stops_of(graph, tree.start, crossings) else {
        return false;
    };
    let is_due = |i: usize| due(graph, tree, &stops[..=i], &crossings[..i]) == Some(crossings[i]);
    stops.last() == Some(&tree.start) && (0..crossings.len()).all(is_due)
}

/// The edge to be crossed next: at the last stop the lowest of the tree not yet walked, or, where none is left, that by
/// which this stop was first reached. Nothing where none is left at the start.
fn due(graph: &Graph, tree: &Tree, stops: &[usize], crossings: &[usize]) -> Option<usize> {
    let here = stops[stops.len() - 1];
    let is_here = |e: &usize| graph.edges[*e].a == here || graph.edges[*e].b == here;
    let unwalked = |e: &usize| !crossings.contains(e);
    let lowest = tree.edges.iter().copied().filter(is_here).filter(unwalked).min();
    lowest.or_else(|| {
        let first = stops.iter().position(|&stop| stop == here)?;
        Some(crossings[first.checked_sub(1)?])
    })
}
