//! Min-max tree covers of a graph, from the proved static library `planner_c`: trials at a limit, the best limit, how far a
//! number of trials comes to it, the check of a filed cover, and the closed walk of one of its trees. `include/planner.h` says
//! what the bytes of a graph, of a cover and of a list beside the graph are. The functions here take a graph alone, a
//! [`Question`] has its lists too.
//!
//! Stack: [`trial`], [`best`] and [`within`] take up to 320 KiB, [`walk`], refused or not, up to 12 KiB; [`check`], and a
//! refusal by the first three, up to 4 KiB; those of a [`Question`] as much. Measured, with some room to spare, and not proved:
//! a stack that is too small ends the program. The 2 MiB that a thread of the standard library has are enough;
//! [`std::thread::Builder::stack_size`] gives a thread less.

mod cover;
pub mod exported;
mod question;
mod walk;
mod within;

pub use cover::{Cover, Tree};
pub use question::Question;
pub use walk::{walk, Walk, WALK_BUFFER};
pub use within::{within, Reached, Within, MOST_TRIALS};

use exported::{planner_best, planner_check, planner_trial};

/// The least length of a buffer in bytes: room for any cover.
pub const BUFFER: usize = 32_708;

/// The two kinds of question.
#[derive(Clone, Copy, Debug, PartialEq, Eq)]
pub enum Kind {
    /// "Yard": tree j starts at the j-th of k roots: vertices 0 to k - 1, or the list of vans of a [`Question`].
    Rooted,
    /// "Roving": 1 to k trees that start anywhere.
    Unrooted,
}

/// What [`trial`] and [`best`] answer.
#[derive(Clone, Copy, Debug, PartialEq, Eq)]
pub enum Reply {
    /// A cover of so many trees stands at the buffer's front, where [`Cover::read`] reads it; its heaviest tree has this
    /// weight, at most four times the limit.
    Cover { limit: u64, heaviest: u64, trees: u64 },
    /// Too low: this is the lowest vertex joined to no root.
    TooLowStop { vertex: u64 },
    /// Too low: so many parts stand at the buffer's front, and fewer roots are near any of them.
    TooLowParts { parts: u64, roots: u64 },
    /// Too low: so many trees are needed, which is above k.
    TooLowNeeds { trees: u64 },
    /// No cover of the kind exists at any limit.
    NoCover,
    /// Refused with this number, and nothing written.
    Refused(u32),
}

fn number(kind: Kind) -> u32 {
    match kind {
        Kind::Rooted => 0,
        Kind::Unrooted => 1,
    }
}

/// The reply of a case and its values.
fn reply(case: u32, values: [u64; 3]) -> Reply {
    let [first, second, third] = values;
    match case {
        0 => Reply::Cover { limit: first, heaviest: second, trees: third },
        1 => Reply::TooLowStop { vertex: first },
        2 => Reply::TooLowParts { parts: first, roots: second },
        3 => Reply::TooLowNeeds { trees: first },
        4 => Reply::NoCover,
        number => Reply::Refused(number),
    }
}

/// The verdict of a check's number and values.
fn verdict(case: u32, values: [u64; 3]) -> Result<u64, u32> {
    match case {
        0 => Ok(values[0]),
        number => Err(number),
    }
}

/// A trial for k trees at a limit, on the bytes of a graph. Any input is answered, so nothing is tested here. Bytes of the
/// buffer past those that the reply says are written stay as they are.
pub fn trial(kind: Kind, k: usize, limit: u64, graph: &[u8], buffer: &mut [u8]) -> Reply {
    let mut values = [0; 3];
    // SAFETY: the function asks nothing of the values; each pointer is to as much as its length says, that of the values to
    // three numbers, and what is written is apart from the rest, being borrowed mutably.
    let case = unsafe {
        planner_trial(
            number(kind),
            k,
            limit,
            graph.as_ptr(),
            graph.len(),
            values.as_mut_ptr(),
            buffer.as_mut_ptr(),
            buffer.len(),
        )
    };
    reply(case, values)
}

/// The best limit for k trees on the bytes of a graph: a cover whose heaviest tree weighs at most four times that of any
/// other of the kind for k. The limit is 0 exactly where a [`trial`] accepts 0. The longest [`walk`] of its trees is at most eight times as long as the longest of any closed
/// walks that together come to every vertex: one from each root, or, unrooted, at most k. Any input is answered; bytes of the
/// buffer past the cover stay as they are.
pub fn best(kind: Kind, k: usize, graph: &[u8], buffer: &mut [u8]) -> Reply {
    let mut values = [0; 3];
    // SAFETY: as of a trial.
    let case = unsafe {
        planner_best(
            number(kind),
            k,
            graph.as_ptr(),
            graph.len(),
            values.as_mut_ptr(),
            buffer.as_mut_ptr(),
            buffer.len(),
        )
    };
    reply(case, values)
}

/// The check of a filed cover of the kind for k: its heaviest weight exactly where it is a cover, otherwise the number of the
/// refusal. Any input is answered.
pub fn check(kind: Kind, k: usize, graph: &[u8], cover: &[u8]) -> Result<u64, u32> {
    let mut values = [0; 3];
    // SAFETY: as of a trial; the two slices are only read.
    let case = unsafe {
        planner_check(
            number(kind),
            k,
            graph.as_ptr(),
            graph.len(),
            cover.as_ptr(),
            cover.len(),
            values.as_mut_ptr(),
        )
    };
    verdict(case, values)
}
