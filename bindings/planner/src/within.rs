//! The search for the best limit, stopped after a number of trials.

use crate::exported::planner_within;
use crate::{number, Kind, Question};

/// The most trials that may be asked for: so many are never spent.
pub const MOST_TRIALS: usize = 33;

/// How far the trials of [`within`] came, with the cover of the last limit accepted.
#[derive(Clone, Copy, Debug, PartialEq, Eq)]
pub struct Reached {
    /// The last limit accepted.
    pub limit: u64,
    /// The weight of the cover's heaviest tree, at most four times the limit.
    pub heaviest: u64,
    /// How many trees the cover has.
    pub trees: u64,
    /// How many trials were made, at most as many as asked for: fewer where the search was at its end before.
    pub trials: u64,
    /// Nobody's cover by the same crews has a heaviest tree below this.
    pub floor: u64,
}

/// What [`within`] answers.
#[derive(Clone, Copy, Debug, PartialEq, Eq)]
pub enum Within {
    /// The search came to its end: this is the best limit, which is the floor too. Its cover stands at the buffer's front,
    /// where [`Cover::read`](crate::Cover::read) reads it.
    Cover(Reached),
    /// The trials are spent, and limits are left to try between the floor and the limit: this is not the best limit. The
    /// cover stands at the buffer's front.
    Spent(Reached),
    /// No cover of the kind exists at any limit. This is found before any trial.
    NoCover,
    /// Refused with this number, and nothing written.
    Refused(u32),
}

/// The [`best`](crate::best) limit's search for k trees on the bytes of a graph, stopped after so many trials, 2 to
/// [`MOST_TRIALS`].
///
/// Nobody's cover by the same crews has a heaviest tree below the floor, and ours weighs at most four times the limit. A reply
/// that is not spent is that of the best limit, with all its bounds; of a spent one these bounds say nothing.
/// [`MOST_TRIALS`] trials are never spent. With more trials the floor never falls and the limit never rises; the heaviest
/// weight may do either. Where limit 0 is accepted that is the only trial, and the floor is 0.
///
/// Refused as the best limit is, and last of all with 56 where the number of trials is below 2 or above [`MOST_TRIALS`]. Any
/// input is answered; bytes of the buffer past the cover stay as they are.
///
/// ```
/// use planner::{within, Kind, Reached, Within, BUFFER};
///
/// // Two vertices and an edge of weight 3. Limit 0 is too low; 3, the sum of all weights, is accepted; 1 and 2 are too low.
/// let graph = [2, 0, 1, 0, 0, 0, 1, 0, 3, 0, 0, 0];
/// let mut buffer = [0; BUFFER];
/// let reached = Reached { limit: 3, heaviest: 3, trees: 1, trials: 2, floor: 1 };
/// assert_eq!(within(Kind::Rooted, 1, 2, &graph, &mut buffer), Within::Spent(reached));
/// let reached = Reached { trials: 3, floor: 2, ..reached };
/// assert_eq!(within(Kind::Rooted, 1, 3, &graph, &mut buffer), Within::Spent(reached));
/// let reached = Reached { trials: 4, floor: 3, ..reached };
/// assert_eq!(within(Kind::Rooted, 1, 33, &graph, &mut buffer), Within::Cover(reached));
/// assert_eq!(within(Kind::Rooted, 1, 34, &graph, &mut buffer), Within::Refused(56));
/// ```
pub fn within(kind: Kind, k: usize, trials: usize, graph: &[u8], buffer: &mut [u8]) -> Within {
    Question::new(kind, k, graph).within(trials, buffer)
}

impl Question<'_> {
    /// The best limit's search [`within`] a number of trials.
    pub fn within(&self, trials: usize, buffer: &mut [u8]) -> Within {
        let classes = self.classes.unwrap_or_default();
        let vans = self.vans.unwrap_or_default();
        let mut values = [0; 6];
        // SAFETY: the function asks nothing of the values; each pointer is to as much as its length says, that of the values
        // to six numbers, and what is written is apart from the rest, being borrowed mutably.
        let case = unsafe {
            planner_within(
                trials,
                number(self.kind),
                self.k,
                self.graph.as_ptr(),
                self.graph.len(),
                self.brought(),
                classes.as_ptr(),
                classes.len(),
                vans.as_ptr(),
                vans.len(),
                values.as_mut_ptr(),
                buffer.as_mut_ptr(),
                buffer.len(),
            )
        };
        told(case, values)
    }
}

/// The answer of a number and its values.
fn told(case: u32, values: [u64; 6]) -> Within {
    let [limit, heaviest, trees, trials, floor, _] = values;
    let reached = Reached { limit, heaviest, trees, trials, floor };
    match case {
        0 => Within::Cover(reached),
        4 => Within::NoCover,
        5 => Within::Spent(reached),
        number => Within::Refused(number),
    }
}
