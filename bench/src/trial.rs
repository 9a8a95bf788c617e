//! A trial at a limit.

use crate::assign::Assigned;
use crate::cover::{write, Tree};
use crate::graph::Graph;
use crate::question::{
    admit, answer_cover, is_rooted, Question, BUFFER, LIMIT, NEEDS, PARTS, STOP,
};
use crate::rooted::Placed;
use crate::roots::Roots;
use crate::split::Piece;
use crate::{rooted, unrooted};

/// Answers with the number of a case or of a refusal; the values and the buffer's front are written as the case has them.
pub fn trial(question: Question, limit: u64, values: &mut [u64; 3], buffer: &mut [u8]) -> u32 {
    let Question { kind, k, .. } = question;
    let graph = match admit(&question) {
        Ok(graph) => graph,
        Err(number) => return number,
    };
    if limit > LIMIT {
        return 22;
    }
    if buffer.len() < BUFFER {
        return 23;
    }
    if is_rooted(kind) {
        let roots = Roots::new(k, question.vans);
        return rooted_trial(&graph, &roots, limit, values, buffer);
    }
    let prepared = unrooted::prepare(&graph);
    let needs = prepared.needs(limit);
    if needs > k as u64 {
        values[0] = needs;
        return NEEDS;
    }
    answer_cover(&graph, limit, &prepared.trees(limit), values, buffer)
}

/// Answers a rooted trial.
fn rooted_trial(
    graph: &Graph,
    roots: &Roots,
    limit: u64,
    values: &mut [u64; 3],
    buffer: &mut [u8],
) -> u32 {
    let mut prepared = match rooted::prepare(graph, roots, limit) {
        Ok(prepared) => prepared,
        Err(vertex) => {
            values[0] = u64::from(vertex);
            return STOP;
        }
    };
    let Placed { parts, left, near, assigned } = prepared.place(limit);
    match assigned {
        Assigned::Roots(assigned) => {
            let trees = prepared.trees(parts, left, &assigned);
            answer_cover(graph, limit, &trees, values, buffer)
        }
        Assigned::Deficient(set) => {
            let roots = set.iter().fold(0, |bits, &part| bits | near[part]).count_ones();
            values[..2].copy_from_slice(&[set.len() as u64, u64::from(roots)]);
            write(&chosen(parts, &set), buffer);
            PARTS
        }
    }
}

/// Some parts as trees, by smallest edge.
fn chosen(mut parts: Vec<Piece>, set: &[usize]) -> Vec<Tree> {
    let take = |&part: &usize| {
        let piece = &mut parts[part];
        Tree::new(piece.start, std::mem::take(&mut piece.edges))
    };
    let mut trees: Vec<Tree> = set.iter().map(take).collect();
    trees.sort_unstable_by_key(|tree| tree.edges[0]);
    trees
}
