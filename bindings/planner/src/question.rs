//! A question with the lists that it may bring beside its graph.

use crate::exported::{planner_ask, planner_route, planner_verify};
use crate::walk::walked;
use crate::{number, reply, verdict, Kind, Reply, Walk};

/// What [`exported::planner_ask`](planner_ask) is asked.
const TRIAL: u32 = 0;
const BEST: u32 = 1;

/// The bits of the lists among those of the lists brought.
const CLASSES: u32 = 1;
const VANS: u32 = 2;

/// A question for k trees of a kind on the bytes of a graph. Later versions add fields, so take those not named from
/// [`Question::new`]:
///
/// ```
/// use planner::{Kind, Question};
///
/// // Two vertices and an edge of weight 3, whose class 10 counts 120 percent: 3.6, so 4.
/// let graph = [2, 0, 1, 0, 0, 0, 1, 0, 3, 0, 0, 0];
/// let question = Question { classes: Some(&[10]), ..Question::new(Kind::Unrooted, 1, &graph) };
/// assert_eq!(question.check(&[1, 0, 1, 0, 0, 0, 0, 0, 0, 0]), Ok(4));
/// ```
///
/// A list that is there is brought, of no bytes too. Refused, after 16 and before 21: 53 where there is not a class for each
/// edge and no more, 54 where a weight used is above 1,000,000. All is said of the weights used, but for 16, which is of the
/// weights as given.
///
/// With a list of vans 21 is for k outside 1 to 32 alone, and straight after it comes 55: the list is not of 2k bytes, or a
/// van's vertex is none of the graph's. 32 holds starts against the vans; other covers and walks are by the same vans. What is
/// left at a vertex goes to the first of its vans:
///
/// ```
/// use planner::{Cover, Kind, Question, Reply, BUFFER};
///
/// // Two vertices and an edge of weight 1; two vans at vertex 0.
/// let graph = [2, 0, 1, 0, 0, 0, 1, 0, 1, 0, 0, 0];
/// let question = Question { vans: Some(&[0, 0, 0, 0]), ..Question::new(Kind::Rooted, 2, &graph) };
/// let mut buffer = [0; BUFFER];
/// let reply = question.trial(5, &mut buffer);
/// assert_eq!(reply, Reply::Cover { limit: 5, heaviest: 1, trees: 2 });
/// let edges: Vec<_> = Cover::read(&buffer).unwrap().trees.into_iter().map(|tree| tree.edges).collect();
/// assert_eq!(edges, [vec![0], vec![]]);
/// ```
#[derive(Clone, Copy, Debug, PartialEq, Eq)]
pub struct Question<'a> {
    pub kind: Kind,
    pub k: usize,
    pub graph: &'a [u8],
    /// The class of each edge, by which its weight is adjusted; with no list every edge is of class 60.
    pub classes: Option<&'a [u8]>,
    /// The vertex where each tree of a rooted question starts, 2 bytes each, lowest byte first; with no list tree j starts at
    /// vertex j. Beside an unrooted question it is not read.
    pub vans: Option<&'a [u8]>,
}

impl<'a> Question<'a> {
    /// A question without lists.
    pub fn new(kind: Kind, k: usize, graph: &'a [u8]) -> Question<'a> {
        Question { kind, k, graph, classes: None, vans: None }
    }

    /// A [`trial`](crate::trial) at a limit.
    pub fn trial(&self, limit: u64, buffer: &mut [u8]) -> Reply {
        self.ask(TRIAL, limit, buffer)
    }

    /// The [`best`](crate::best) limit.
    pub fn best(&self, buffer: &mut [u8]) -> Reply {
        self.ask(BEST, 0, buffer)
    }

    /// The [`check`](crate::check) of a filed cover.
    pub fn check(&self, cover: &[u8]) -> Result<u64, u32> {
        let classes = self.classes.unwrap_or_default();
        let vans = self.vans.unwrap_or_default();
        let mut values = [0; 3];
        // SAFETY: as of `ask`; the slices are only read.
        let case = unsafe {
            planner_verify(
                number(self.kind),
                self.k,
                self.graph.as_ptr(),
                self.graph.len(),
                self.brought(),
                classes.as_ptr(),
                classes.len(),
                vans.as_ptr(),
                vans.len(),
                cover.as_ptr(),
                cover.len(),
                values.as_mut_ptr(),
            )
        };
        verdict(case, values)
    }

    /// The closed [`walk`](crate::walk) of one tree of a filed cover.
    pub fn walk(&self, cover: &[u8], tree: usize, buffer: &mut [u8]) -> Result<Walk, u32> {
        let classes = self.classes.unwrap_or_default();
        let vans = self.vans.unwrap_or_default();
        let mut values = [0; 2];
        // SAFETY: as of `ask`, but that the values are two numbers.
        let case = unsafe {
            planner_route(
                number(self.kind),
                self.k,
                self.graph.as_ptr(),
                self.graph.len(),
                self.brought(),
                classes.as_ptr(),
                classes.len(),
                vans.as_ptr(),
                vans.len(),
                cover.as_ptr(),
                cover.len(),
                tree,
                values.as_mut_ptr(),
                buffer.as_mut_ptr(),
                buffer.len(),
            )
        };
        walked(case, values)
    }

    fn ask(&self, asked: u32, limit: u64, buffer: &mut [u8]) -> Reply {
        let classes = self.classes.unwrap_or_default();
        let vans = self.vans.unwrap_or_default();
        let mut values = [0; 3];
        // SAFETY: the function asks nothing of the values; each pointer is to as much as its length says, that of the values
        // to three numbers, and what is written is apart from the rest, being borrowed mutably.
        let case = unsafe {
            planner_ask(
                asked,
                limit,
                number(self.kind),
                self.k,
                self.graph.as_ptr(),
                self.graph.len(),
                self.brought(),
                classes.as_ptr(),
                classes.len(),
                vans.as_ptr(),
                vans.len(),
                values.as_mut_ptr(),
                buffer.as_mut_ptr(),
                buffer.len(),
            )
        };
        reply(case, values)
    }

    /// The bits of the lists that are there.
    pub(crate) fn brought(&self) -> u32 {
        let bit = |list: Option<&[u8]>, bit| if list.is_some() { bit } else { 0 };
        bit(self.classes, CLASSES) | bit(self.vans, VANS)
    }
}
