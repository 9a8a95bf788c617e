//! The search for the best limit, stopped after a number of trials.

use std::ops::RangeInclusive;

use crate::best::{self, accepted, cover_exists};
use crate::brought::Brought;
use crate::cover::{heaviest, Tree};
use crate::graph::Graph;
use crate::question::{Answer, Kind};
use crate::trial::write;

/// The numbers of trials that may be asked for.
pub const TRIALS: RangeInclusive<u64> = 2..=33;

/// The answer to a question with a number of trials.
#[derive(Clone, Debug, PartialEq, Eq)]
pub enum Within {
    /// The cover of the last limit accepted was written.
    Cover {
        /// The last limit accepted.
        high: u64,
        /// The weight of the heaviest tree written.
        heaviest: u64,
        /// How many trials were made, at most as many as asked for.
        trials: u64,
        /// No cover by the same crews has a heaviest tree below this.
        floor: u64,
        /// Whether the search would have gone on.
        spent: bool,
    },
    /// No cover of the kind exists at any limit.
    NoCover,
    /// The question is refused with this number.
    Refused(u16),
}

/// What a reply says besides that of a best-limit question; nothing but 0 where there is no cover or the question is refused.
#[derive(Clone, Copy, Debug, Default, PartialEq, Eq)]
pub struct Known {
    pub trials: u64,
    pub floor: u64,
    pub spent: bool,
}

impl Within {
    /// The answer as one to a best-limit question, and what is known besides.
    pub fn parted(&self) -> (Answer, Known) {
        match *self {
            Within::Cover { high, heaviest, trials, floor, spent } => {
                (Answer::Cover { limit: high, heaviest }, Known { trials, floor, spent })
            }
            Within::NoCover => (Answer::NoCover, Known::default()),
            Within::Refused(number) => (Answer::Refused(number), Known::default()),
        }
    }
}

/// Where a search stands after some trials.
#[derive(Clone, Debug, PartialEq, Eq)]
pub struct Standing<C> {
    /// The last limit not accepted; 0 where limit 0 was.
    pub low: u64,
    /// The last limit accepted.
    pub high: u64,
    /// What the trial at `high` found.
    pub cover: C,
    /// The trials made.
    pub trials: u64,
}

impl<C> Standing<C> {
    /// Below this no cover has its heaviest tree: every limit up to `low` is too low, unless limit 0 was accepted.
    pub fn floor(&self) -> u64 {
        if self.high == 0 {
            0
        } else {
            self.low + 1
        }
    }

    /// Whether there are limits left to try between the two.
    pub fn is_spent(&self) -> bool {
        self.high - self.low > 1
    }
}

/// Searches up to a limit that is accepted, in p trials at most, p being 2 or more; a trial finds nothing where its limit is
/// too low.
pub fn search<C>(sum: u64, p: u64, mut trial: impl FnMut(u64) -> Option<C>) -> Standing<C> {
    if let Some(cover) = trial(0) {
        return Standing { low: 0, high: 0, cover, trials: 1 };
    }
    let cover = trial(sum).expect("the sum of all weights is accepted");
    let mut at = Standing { low: 0, high: sum, cover, trials: 2 };
    while at.is_spent() && at.trials < p {
        let middle = (at.low + at.high) / 2;
        match trial(middle) {
            Some(cover) => (at.high, at.cover) = (middle, cover),
            None => at.low = middle,
        }
        at.trials += 1;
    }
    at
}

/// The graph and the roots of a question with a number of trials p, or its refusal: that of the best-limit question, and last
/// of all 56.
pub fn admit(
    kind: Kind,
    brought: Brought,
    k: u64,
    p: u64,
    room: usize,
) -> Result<(Graph, Vec<usize>), u16> {
    let admitted = best::admit(kind, brought, k, room)?;
    if !TRIALS.contains(&p) {
        return Err(56);
    }
    Ok(admitted)
}

/// Where the search on a graph stands after p trials; nothing where no cover exists, which is found before any trial.
pub fn stand(kind: Kind, graph: &Graph, roots: &[usize], p: u64) -> Option<Standing<Vec<Tree>>> {
    cover_exists(kind, graph, roots)
        .then(|| search(graph.total(), p, |limit| accepted(kind, graph, roots, limit)))
}

/// Answers a question with a number of trials p without lists.
pub fn best_within(kind: Kind, sheet: &[u8], k: u64, p: u64, buffer: &mut [u8]) -> Within {
    best_within_with(kind, Brought::plain(sheet), k, p, buffer)
}

/// Answers a question with a number of trials p, writing the cover into the first bytes of the buffer.
pub fn best_within_with(kind: Kind, brought: Brought, k: u64, p: u64, buffer: &mut [u8]) -> Within {
    match admit(kind, brought, k, p, buffer.len()) {
        Err(number) => Within::Refused(number),
        Ok((graph, roots)) => match stand(kind, &graph, &roots, p) {
            None => Within::NoCover,
            Some(at) => file(&graph, &at, buffer),
        },
    }
}

/// Turns where a search stands into its answer, and writes the cover.
fn file(graph: &Graph, at: &Standing<Vec<Tree>>, buffer: &mut [u8]) -> Within {
    write(&at.cover, buffer);
    let (heaviest, floor, spent) = (heaviest(graph, &at.cover), at.floor(), at.is_spent());
    Within::Cover { high: at.high, heaviest, trials: at.trials, floor, spent }
}
