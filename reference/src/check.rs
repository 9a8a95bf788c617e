//! The check of a filed cover.

use crate::brought::Brought;
use crate::cover::{decode, gather, heaviest, Filed, Tree};
use crate::graph::Graph;
use crate::question::Kind;
use crate::vans::Crews;

/// Checks cover bytes against sheet bytes without lists.
pub fn check(kind: Kind, sheet: &[u8], k: u64, cover: &[u8]) -> Result<u64, u16> {
    check_with(kind, Brought::plain(sheet), k, cover)
}

/// Checks cover bytes against what is brought: yes with the heaviest weight, otherwise a number.
pub fn check_with(kind: Kind, brought: Brought, k: u64, cover: &[u8]) -> Result<u64, u16> {
    let graph = brought.graph()?;
    let roots = brought.crews(kind, graph.n, k)?;
    check_on(kind, &graph, roots, cover)
}

/// Checks cover bytes against a graph and the trees asked for: yes with the heaviest weight, or 31 to 35.
pub fn check_on(kind: Kind, graph: &Graph, crews: impl Crews, cover: &[u8]) -> Result<u64, u16> {
    let filed = decode(cover)?;
    if !starts_fit(kind, graph.n, &crews.roots(), &filed.starts) {
        return Err(32);
    }
    if !entries_fit(graph, &filed) {
        return Err(33);
    }
    let trees = gather(&filed);
    if !trees.iter().all(|tree| is_tree(graph, tree)) {
        return Err(34);
    }
    if !covers_all(graph, &trees) {
        return Err(35);
    }
    Ok(heaviest(graph, &trees))
}

/// Whether the number of trees and their starts follow the rule of the kind.
fn starts_fit(kind: Kind, n: usize, roots: &[usize], starts: &[usize]) -> bool {
    let by_kind = match kind {
        Kind::Rooted => starts == roots,
        Kind::Unrooted => (1..=roots.len()).contains(&starts.len()),
    };
    by_kind && starts.iter().all(|&start| start < n)
}

/// Whether the entries name trees and edges that exist and rise strictly by tree, then by edge.
fn entries_fit(graph: &Graph, filed: &Filed) -> bool {
    let exists =
        |&(tree, edge): &(usize, usize)| tree < filed.starts.len() && edge < graph.edges.len();
    filed.entries.iter().all(exists) && filed.entries.windows(2).all(|pair| pair[0] < pair[1])
}

/// Whether the edges have no loop and are all joined to the start.
pub fn is_tree(graph: &Graph, tree: &Tree) -> bool {
    let around = graph.around(&tree.edges);
    let mut reached = vec![false; graph.n];
    let mut used = vec![false; graph.edges.len()];
    let mut open = vec![tree.start];
    reached[tree.start] = true;
    while let Some(vertex) = open.pop() {
        for &(edge, other) in &around[vertex] {
            if std::mem::replace(&mut used[edge], true) {
                continue;
            }
            if std::mem::replace(&mut reached[other], true) {
                return false;
            }
            open.push(other);
        }
    }
    tree.edges.iter().all(|&e| used[e])
}

/// Whether every vertex is covered by some tree.
fn covers_all(graph: &Graph, trees: &[Tree]) -> bool {
    let mut covered = vec![false; graph.n];
    for vertex in trees.iter().flat_map(|tree| tree.vertices(graph)) {
        covered[vertex] = true;
    }
    covered.into_iter().all(|is| is)
}
