//! What is brought with a question: the sheet, and the lists that may lie beside it.

use crate::graph::{read, Graph};
use crate::question::{tree_count, Kind};
use crate::surface::{adjust, UNLISTED};
use crate::vans;

/// The bytes that a question goes by, right or wrong.
#[derive(Clone, Copy, Debug, PartialEq, Eq)]
pub struct Brought<'a> {
    pub sheet: &'a [u8],
    /// The class of each edge. A list of no bytes is a list; without one every edge has the class `UNLISTED`.
    pub classes: Option<&'a [u8]>,
    /// The root of each tree of a rooted question. Without a list these are 0 to k - 1; an unrooted question leaves it unread.
    pub vans: Option<&'a [u8]>,
}

impl<'a> Brought<'a> {
    /// A sheet with no list beside it.
    pub fn plain(sheet: &'a [u8]) -> Brought<'a> {
        Brought { sheet, classes: None, vans: None }
    }

    /// The graph of the question, its weights adjusted by class, or a refusal: 11 to 16, 53, 54.
    pub fn graph(self) -> Result<Graph, u16> {
        let graph = read(self.sheet)?;
        let unlisted = vec![UNLISTED; graph.edges.len()];
        adjust(&graph, self.classes.unwrap_or(&unlisted))
    }

    /// The root of each tree of a question for k trees on n vertices, or a refusal: 21, 55.
    ///
    /// Without roots only the number of trees counts.
    pub fn crews(self, kind: Kind, n: usize, k: u64) -> Result<Vec<usize>, u16> {
        match self.vans.filter(|_| kind == Kind::Rooted) {
            Some(list) => vans::read(list, n, tree_count(k)?),
            None if kind == Kind::Rooted && k > n as u64 => Err(21),
            None => Ok((0..tree_count(k)?).collect()),
        }
    }
}
