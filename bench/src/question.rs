//! What every question has: the kind, its bytes, the numbers of the cases, and who is refused.

use std::ops::RangeInclusive;

use crate::cover::{heaviest, write, Tree};
use crate::graph::{read, Graph};
use crate::roots;

/// Document 01's numbers of kinds and cases, as the linked library has them.
pub const ROOTED: u32 = 0;
pub const UNROOTED: u32 = 1;
pub const COVER: u32 = 0;
pub const STOP: u32 = 1;
pub const PARTS: u32 = 2;
pub const NEEDS: u32 = 3;
pub const NO_COVER: u32 = 4;
pub const SPENT: u32 = 5;

/// The bits of the lists that a question may bring.
pub const CLASSES: u32 = 1;
pub const VANS: u32 = 2;

/// The least length of a lent buffer in bytes.
pub const BUFFER: usize = 32_708;

/// The largest limit.
pub const LIMIT: u64 = 2_048_000_000;

/// How many trials may be asked for. The most are never spent: with them the search comes to the best limit.
pub const TRIALS: RangeInclusive<usize> = 2..=33;

/// Whether a kind is rooted; every number but 0 is unrooted.
pub fn is_rooted(kind: u32) -> bool {
    kind == ROOTED
}

/// What is asked about: k trees of a kind on the graph of sheet bytes, and the lists beside it where there are any: the class of
/// each edge, and the vertex where each tree of a rooted question starts.
#[derive(Clone, Copy)]
pub struct Question<'a> {
    pub kind: u32,
    pub k: usize,
    pub sheet: &'a [u8],
    pub classes: Option<&'a [u8]>,
    pub vans: Option<&'a [u8]>,
}

impl<'a> Question<'a> {
    /// The bits of the lists that it brings.
    pub fn brought(&self) -> u32 {
        let bit = |list: Option<&[u8]>, bit| if list.is_some() { bit } else { 0 };
        bit(self.classes, CLASSES) | bit(self.vans, VANS)
    }

    /// The list of vans, if there is one and it is read: an unrooted question leaves it alone.
    pub fn listed(&self) -> Option<&'a [u8]> {
        self.vans.filter(|_| is_rooted(self.kind))
    }
}

/// The graph of a question, or its refusal: 11 to 16, 53, 54, 21, 55.
pub fn admit(question: &Question) -> Result<Graph, u32> {
    let Question { kind, k, sheet, classes, .. } = *question;
    let mut graph = read(sheet)?;
    if let Some(classes) = classes {
        graph.adjust(classes)?;
    }
    let listed = question.listed();
    if k == 0 || k > 32 || is_rooted(kind) && listed.is_none() && k > graph.n {
        return Err(21);
    }
    match listed {
        Some(list) if !roots::fits(list, k, graph.n) => Err(55),
        _ => Ok(graph),
    }
}

/// Answers with a cover: its bytes and values are written.
pub fn answer_cover(
    graph: &Graph,
    limit: u64,
    trees: &[Tree],
    values: &mut [u64; 3],
    buffer: &mut [u8],
) -> u32 {
    *values = [limit, heaviest(graph, trees), trees.len() as u64];
    write(trees, buffer);
    COVER
}
