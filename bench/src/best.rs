//! The best limit, and the same search stopped after a number of trials.

use crate::assign::Assigned;
use crate::cover::Tree;
use crate::graph::Graph;
use crate::question::{
    admit, answer_cover, is_rooted, Question, BUFFER, COVER, NO_COVER, SPENT, TRIALS,
};
use crate::rooted::Placed;
use crate::roots::Roots;
use crate::{rooted, unrooted};

/// Answers with the number of a case or of a refusal; the values and the buffer's front are written as the case has them.
pub fn best(question: Question, values: &mut [u64; 3], buffer: &mut [u8]) -> u32 {
    match searched(&question, *TRIALS.end(), buffer.len()) {
        Ok((graph, at, trees)) => answer_cover(&graph, at.high, &trees, values, buffer),
        Err(number) => number,
    }
}

/// The same after so many trials at most. The values of a cover are then six: behind those of the best limit the trials made,
/// the floor, and 1 if the trials are spent, 0 if not.
pub fn within(question: Question, trials: usize, values: &mut [u64; 6], buffer: &mut [u8]) -> u32 {
    let (graph, at, trees) = match searched(&question, trials, buffer.len()) {
        Ok(found) => found,
        Err(number) => return number,
    };
    let first = values.first_chunk_mut().expect("six values");
    answer_cover(&graph, at.high, &trees, first, buffer);
    let is_spent = at.is_spent();
    values[3..].copy_from_slice(&[at.trials as u64, at.floor(), u64::from(is_spent)]);
    if is_spent {
        SPENT
    } else {
        COVER
    }
}

/// Where a search stands after so many trials: `low` is the last limit not accepted, or 0 where 0 was, `high` the last accepted.
struct Standing {
    low: u64,
    high: u64,
    trials: usize,
}

impl Standing {
    /// Whether limits are left to try.
    fn is_spent(&self) -> bool {
        self.high - self.low > 1
    }

    /// One more than the largest limit tried that was too low, or 0 where 0 was accepted.
    fn floor(&self) -> u64 {
        if self.high == 0 {
            0
        } else {
            self.low + 1
        }
    }
}

/// The graph of a question, where the search stands after at most so many trials, and the trees of the last limit accepted; or
/// the number of a refusal, or that there is no cover.
fn searched(
    question: &Question,
    most: usize,
    room: usize,
) -> Result<(Graph, Standing, Vec<Tree>), u32> {
    let Question { kind, k, vans, .. } = *question;
    let graph = admit(question)?;
    if room < BUFFER {
        return Err(23);
    }
    if !TRIALS.contains(&most) {
        return Err(56);
    }
    let found = if is_rooted(kind) {
        from_roots(&graph, &Roots::new(k, vans), most)
    } else {
        from_anywhere(&graph, k, most)
    };
    let (at, trees) = found.ok_or(NO_COVER)?;
    Ok((graph, at, trees))
}

/// The search of a rooted question; nothing where no cover exists.
fn from_roots(graph: &Graph, roots: &Roots, most: usize) -> Option<(Standing, Vec<Tree>)> {
    let mut prepared = rooted::prepare(graph, roots, u64::MAX).ok()?;
    // At 0 nothing is split, so that all vertices must be joined to roots by weightless edges, and that is all.
    let at_zero = prepared.heaviest_edge == 0;
    let at = search(at_zero, graph.total(), most, |limit| prepared.accepts(limit));
    let Placed { parts, left, assigned, .. } = prepared.place(at.high);
    let Assigned::Roots(assigned) = assigned else {
        unreachable!("the limit found is accepted");
    };
    let trees = prepared.trees(parts, left, &assigned);
    Some((at, trees))
}

/// The search of an unrooted question for k trees; nothing where no cover exists.
fn from_anywhere(graph: &Graph, k: usize, most: usize) -> Option<(Standing, Vec<Tree>)> {
    let prepared = unrooted::prepare(graph);
    if prepared.components > k {
        return None;
    }
    let accepts = |limit| prepared.needs(limit) <= k as u64;
    let at = search(accepts(0), graph.total(), most, accepts);
    let trees = prepared.trees(at.high);
    Some((at, trees))
}

/// Where the search stands after at most so many trials, two or more, given whether 0 is accepted, the sum of all weights, which
/// is accepted otherwise, and the decision above 0.
fn search(at_zero: bool, sum: u64, most: usize, mut accepts: impl FnMut(u64) -> bool) -> Standing {
    if at_zero {
        return Standing { low: 0, high: 0, trials: 1 };
    }
    let mut at = Standing { low: 0, high: sum, trials: 2 };
    while at.is_spent() && at.trials < most {
        let middle = (at.low + at.high) / 2;
        if accepts(middle) {
            at.high = middle;
        } else {
            at.low = middle;
        }
        at.trials += 1;
    }
    at
}
