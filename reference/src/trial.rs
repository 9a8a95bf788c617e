//! A trial at a given limit, from sheet bytes to an answer and a lent buffer.

use crate::brought::Brought;
use crate::cover::{encode, heaviest, Tree};
use crate::graph::Graph;
use crate::question::{Answer, Kind, BUFFER, LIMIT};
use crate::vans::Crews;
use crate::{rooted, unrooted};

/// What a trial finds.
#[derive(Clone, Debug, PartialEq, Eq)]
pub enum Outcome {
    /// Accepted: the trees of a cover.
    Cover(Vec<Tree>),
    /// Too low: the lowest vertex joined to no root.
    Stop(usize),
    /// Too low: some parts by smallest edge, and the number of roots near any of them.
    Parts { parts: Vec<Tree>, roots: usize },
    /// Too low: the number of trees needed.
    Needs(u64),
}

/// Runs a trial on a graph.
pub fn run(kind: Kind, graph: &Graph, crews: impl Crews, limit: u64) -> Outcome {
    match kind {
        Kind::Rooted => rooted::run(graph, crews, limit),
        Kind::Unrooted => unrooted::run(graph, crews.roots().len(), limit),
    }
}

/// The graph and the roots of a trial, or its refusal: 11 to 16, 53, 54, 21, 55, 22, 23.
pub fn admit(
    kind: Kind,
    brought: Brought,
    k: u64,
    limit: u64,
    room: usize,
) -> Result<(Graph, Vec<usize>), u16> {
    let graph = brought.graph()?;
    let roots = brought.crews(kind, graph.n, k)?;
    if limit > LIMIT {
        return Err(22);
    }
    if room < BUFFER {
        return Err(23);
    }
    Ok((graph, roots))
}

/// Answers a trial question without lists.
pub fn trial(kind: Kind, sheet: &[u8], k: u64, limit: u64, buffer: &mut [u8]) -> Answer {
    trial_with(kind, Brought::plain(sheet), k, limit, buffer)
}

/// Answers a trial question, writing the cover or the parts into the first bytes of the buffer.
pub fn trial_with(kind: Kind, brought: Brought, k: u64, limit: u64, buffer: &mut [u8]) -> Answer {
    match admit(kind, brought, k, limit, buffer.len()) {
        Ok((graph, roots)) => file(&graph, limit, &run(kind, &graph, roots, limit), buffer),
        Err(number) => Answer::Refused(number),
    }
}

/// Turns an outcome into its answer and writes its bytes, if any.
pub fn file(graph: &Graph, limit: u64, outcome: &Outcome, buffer: &mut [u8]) -> Answer {
    match outcome {
        Outcome::Cover(trees) => {
            write(trees, buffer);
            let heaviest = heaviest(graph, trees);
            Answer::Cover { limit, heaviest }
        }
        Outcome::Parts { parts, roots } => {
            write(parts, buffer);
            let (parts, roots) = (parts.len(), *roots);
            Answer::Parts { parts, roots }
        }
        Outcome::Stop(vertex) => Answer::Stop(*vertex),
        Outcome::Needs(count) => Answer::Needs(*count),
    }
}

/// Writes trees as cover bytes over the first bytes of the buffer.
pub fn write(trees: &[Tree], buffer: &mut [u8]) {
    let bytes = encode(trees);
    buffer[..bytes.len()].copy_from_slice(&bytes);
}
