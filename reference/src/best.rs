//! The search for the best limit.

use crate::brought::Brought;
use crate::cover::Tree;
use crate::forest::{components, lowest_unjoined, rooted, unrooted};
use crate::graph::Graph;
use crate::question::{Answer, Kind, BUFFER};
use crate::trial::{file, run, Outcome};
use crate::vans::Crews;

/// The graph and the roots of a best-limit question, or its refusal: 11 to 16, 53, 54, 21, 55, 23.
pub fn admit(
    kind: Kind,
    brought: Brought,
    k: u64,
    room: usize,
) -> Result<(Graph, Vec<usize>), u16> {
    let graph = brought.graph()?;
    let roots = brought.crews(kind, graph.n, k)?;
    if room < BUFFER {
        return Err(23);
    }
    Ok((graph, roots))
}

/// Answers a best-limit question without lists.
pub fn best(kind: Kind, sheet: &[u8], k: u64, buffer: &mut [u8]) -> Answer {
    best_with(kind, Brought::plain(sheet), k, buffer)
}

/// Answers a best-limit question, writing the cover into the first bytes of the buffer.
pub fn best_with(kind: Kind, brought: Brought, k: u64, buffer: &mut [u8]) -> Answer {
    match admit(kind, brought, k, buffer.len()) {
        Err(number) => Answer::Refused(number),
        Ok((graph, roots)) => match search(kind, &graph, roots) {
            None => Answer::NoCover,
            Some((limit, trees)) => file(&graph, limit, &Outcome::Cover(trees), buffer),
        },
    }
}

/// Whether any cover exists: every vertex joined to a root, or no more components than trees.
pub fn cover_exists(kind: Kind, graph: &Graph, crews: impl Crews) -> bool {
    let (all, roots) = (graph.total(), crews.roots());
    match kind {
        Kind::Rooted => lowest_unjoined(&rooted(graph, &roots, all), &roots).is_none(),
        Kind::Unrooted => components(&unrooted(graph, all)).len() <= roots.len(),
    }
}

/// The best limit with its cover, or nothing where no cover exists.
pub fn search(kind: Kind, graph: &Graph, crews: impl Crews) -> Option<(u64, Vec<Tree>)> {
    let roots = &crews.roots();
    if !cover_exists(kind, graph, roots) {
        return None;
    }
    if let Some(trees) = accepted(kind, graph, roots, 0) {
        return Some((0, trees));
    }
    let (mut low, mut high) = (0, graph.total());
    let mut cover = accepted(kind, graph, roots, high).expect("the sum of all weights is accepted");
    while high - low > 1 {
        let middle = (low + high) / 2;
        match accepted(kind, graph, roots, middle) {
            Some(trees) => (high, cover) = (middle, trees),
            None => low = middle,
        }
    }
    Some((high, cover))
}

/// The cover of a trial, if it is accepted.
pub fn accepted(kind: Kind, graph: &Graph, roots: &[usize], limit: u64) -> Option<Vec<Tree>> {
    match run(kind, graph, roots, limit) {
        Outcome::Cover(trees) => Some(trees),
        _ => None,
    }
}
