//! The weights of document 02, A.3, by a second reading of its words, and the records with a list of classes.

use super::made_records;
use reference::brought::Brought;
use reference::check::check_with;
use reference::districts::{Asked, Record};
use reference::graph::{Edge, Graph};

/// The classes from one to another, and how many percent they count; all the others count 100.
pub const RANGES: [(u8, u8, u64); 4] = [(0, 9, 100), (10, 19, 120), (20, 39, 150), (40, 59, 200)];

/// The percentage due to a class.
pub fn percent_due(class: u8) -> u64 {
    let range = RANGES.iter().find(|(low, high, _)| (low..=high).contains(&&class));
    range.map_or(100, |&(_, _, percent)| percent)
}

/// The weight due: the least whole number that is not below weight times percent over 100.
pub fn weight_due(weight: u64, class: u8) -> u64 {
    let hundredfold = weight * percent_due(class);
    (hundredfold / 100..).find(|whole| 100 * whole >= hundredfold).expect("a whole number")
}

/// The graph with the weights due.
pub fn graph_due(graph: &Graph, classes: &[u8]) -> Graph {
    assert_eq!(graph.edges.len(), classes.len());
    let of_class = |(edge, class): (&Edge, &u8)| (edge.a, edge.b, weight_due(edge.weight, *class));
    let edges: Vec<_> = graph.edges.iter().zip(classes).map(of_class).collect();
    Graph::new(graph.n, &edges)
}

/// The records that bring a list of classes, with the list, but for those that bring vans or a number of trials too.
pub fn listed() -> Vec<(&'static Record, &'static [u8])> {
    let is_alone =
        |record: &&Record| record.vans.is_none() && !matches!(record.asked, Asked::Within { .. });
    let alone = made_records().iter().filter(is_alone);
    alone.filter_map(|record| Some((record, record.classes.as_deref()?))).collect()
}

/// What the check answers to a record of it.
pub fn checked(record: &Record, brought: Brought) -> Option<Result<u64, u16>> {
    let Asked::Check { cover } = &record.asked else { return None };
    Some(check_with(record.kind, brought, record.k as u64, cover))
}
