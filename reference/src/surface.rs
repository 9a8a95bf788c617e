//! Surfaces: what the class of each edge makes of its weight.

use crate::graph::{Edge, Graph};

/// The class of every edge where a question brings no list of classes.
pub const UNLISTED: u8 = 60;

/// The largest adjusted weight.
const MOST: u64 = 1_000_000;

/// How many percent of its weight an edge of a class counts.
pub fn percent(class: u8) -> u64 {
    match class {
        0..=9 => 100,
        10..=19 => 120,
        20..=39 => 150,
        40..=59 => 200,
        _ => 100,
    }
}

/// The weight used for an edge: its weight times percent over 100, rounded up.
pub fn adjusted(weight: u64, class: u8) -> u64 {
    (weight * percent(class)).div_ceil(100)
}

/// The graph with the weights that its list of classes makes of its own, or refusal 53 or 54.
pub fn adjust(graph: &Graph, classes: &[u8]) -> Result<Graph, u16> {
    if classes.len() != graph.edges.len() {
        return Err(53);
    }
    let of_class =
        |(edge, &class): (&Edge, &u8)| Edge { weight: adjusted(edge.weight, class), ..*edge };
    let edges: Vec<Edge> = graph.edges.iter().zip(classes).map(of_class).collect();
    if edges.iter().any(|edge| edge.weight > MOST) {
        return Err(54);
    }
    Ok(Graph { n: graph.n, edges })
}
