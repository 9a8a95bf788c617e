//! The closed walk of one tree of a filed cover.

use crate::exported::planner_walk;
use crate::{number, Kind};

/// The least length of a walk's buffer in bytes: room for any walk.
pub const WALK_BUFFER: usize = 1_022;

/// A walk that [`walk`] has written to a buffer's front.
#[derive(Clone, Copy, Debug, PartialEq, Eq)]
pub struct Walk {
    /// How many stops it has, its start counted at both ends: 2q + 1 for a tree of q edges, at most 511.
    pub stops: u64,
    /// Twice the tree's weight.
    pub length: u64,
}

impl Walk {
    /// The vertex of each stop in the walk's order, read from the front of the buffer that it was written to. `None` where
    /// there are not so many bytes.
    pub fn read(&self, buffer: &[u8]) -> Option<Vec<usize>> {
        let length = usize::try_from(self.stops).ok()?.checked_mul(2)?;
        let fields = buffer.get(..length)?.chunks_exact(2);
        Some(fields.map(|two| usize::from(u16::from_le_bytes([two[0], two[1]]))).collect())
    }
}

/// The closed walk of one tree of a filed cover of the kind for k, written to the buffer's front, where [`Walk::read`] reads
/// it; bytes of the buffer past it stay as they are.
///
/// It begins and ends at the tree's start, crosses each edge of the tree exactly twice and no other. At every vertex the lowest
/// edge of the tree not yet walked goes first; where none is left, the edge by which the vertex was first reached is walked
/// back. It is the only such walk.
///
/// Otherwise, and then nothing is written, the number of [`check`](crate::check) for the cover, then 51 where there is no such
/// tree, then 52 where the buffer is shorter than [`WALK_BUFFER`]. Any input is answered.
pub fn walk(
    kind: Kind,
    k: usize,
    graph: &[u8],
    cover: &[u8],
    tree: usize,
    buffer: &mut [u8],
) -> Result<Walk, u32> {
    let mut values = [0; 2];
    // SAFETY: the function asks nothing of the values; each pointer is to as much as its length says, that of the values to
    // two numbers, and what is written is apart from the rest, being borrowed mutably.
    let case = unsafe {
        planner_walk(
            number(kind),
            k,
            graph.as_ptr(),
            graph.len(),
            cover.as_ptr(),
            cover.len(),
            tree,
            values.as_mut_ptr(),
            buffer.as_mut_ptr(),
            buffer.len(),
        )
    };
    walked(case, values)
}

/// The answer of a walk's number and values.
pub(crate) fn walked(case: u32, values: [u64; 2]) -> Result<Walk, u32> {
    match case {
        0 => Ok(Walk { stops: values[0], length: values[1] }),
        number => Err(number),
    }
}
