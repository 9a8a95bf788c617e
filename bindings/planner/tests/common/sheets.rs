//! Sheet N, every function, and the cover that one has written, for the tests with lists and those with a number of trials.

use crate::common::call::{Asked, Got};
use planner::{BUFFER, MOST_TRIALS, WALK_BUFFER};
use reference::cover::filed_length;
use reference::graph::sheet;

/// Sheet N of document 01 with other weights.
pub fn sheet_n([a, b, c]: [u64; 3]) -> Vec<u8> {
    sheet(4, &[(0, 2, a), (2, 3, b), (1, 3, c)])
}

/// Every function, asked with room enough: a trial at a limit, the best limit, its search to the end, the check of a cover and
/// the walk of its first tree.
pub fn all_of(limit: u64, cover: &[u8]) -> [Asked<'_>; 5] {
    [
        Asked::Trial { limit, room: BUFFER },
        Asked::Best { room: BUFFER },
        Asked::Within { trials: MOST_TRIALS, room: BUFFER },
        Asked::Check { cover },
        Asked::Walk { cover, tree: 0, room: WALK_BUFFER },
    ]
}

/// The cover that a trial or a search has written.
pub fn written(got: &Got) -> &[u8] {
    &got.buffer.1[..filed_length(&got.buffer.1).expect("four bytes")]
}
