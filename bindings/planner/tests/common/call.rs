//! Questions as the exported functions take them, put to one of these.

use super::lent::Lent;
use planner::exported::*;
use reference::districts::{Asked as Recorded, Record};
use reference::question::Kind as Crews;
use reference::random::Random;

/// What is asked.
#[derive(Clone, Copy, Debug)]
pub enum Asked<'a> {
    Trial { limit: u64, room: usize },
    Best { room: usize },
    Within { trials: usize, room: usize },
    Check { cover: &'a [u8] },
    Walk { cover: &'a [u8], tree: usize, room: usize },
}

impl<'a> Asked<'a> {
    /// The cover's bytes, if there is one.
    fn cover(self) -> &'a [u8] {
        match self {
            Asked::Trial { .. } | Asked::Best { .. } | Asked::Within { .. } => &[],
            Asked::Check { cover } | Asked::Walk { cover, .. } => cover,
        }
    }

    /// How many bytes the buffer has, and how many values there are.
    fn lent(self) -> (usize, usize) {
        match self {
            Asked::Trial { room, .. } | Asked::Best { room } => (room, 3),
            Asked::Within { room, .. } => (room, 6),
            Asked::Check { .. } => (0, 3),
            Asked::Walk { room, .. } => (room, 2),
        }
    }
}

/// A question, with the bytes of the lists that are brought.
#[derive(Clone, Copy, Debug)]
pub struct Question<'a> {
    pub asked: Asked<'a>,
    pub kind: u32,
    pub k: usize,
    pub sheet: &'a [u8],
    pub classes: Option<&'a [u8]>,
    pub vans: Option<&'a [u8]>,
}

impl<'a> Question<'a> {
    /// The question of a record.
    pub fn of(record: &'a Record) -> Question<'a> {
        let asked = match &record.asked {
            Recorded::Trial { limit, room } => Asked::Trial { limit: *limit, room: *room },
            Recorded::Best { room } => Asked::Best { room: *room },
            Recorded::Within { trials, room } => {
                Asked::Within { trials: *trials as usize, room: *room }
            }
            Recorded::Check { cover } => Asked::Check { cover },
        };
        let kind = u32::from(record.kind == Crews::Unrooted);
        let (classes, vans) = (record.classes.as_deref(), record.vans.as_deref());
        Question { asked, kind, k: record.k, sheet: &record.sheet, classes, vans }
    }

    /// The general function with the lists that are brought, and no others.
    pub fn general(&self) -> Through<'a> {
        let bit = |list: Option<&[u8]>, bit| if list.is_some() { bit } else { 0 };
        let brought = bit(self.classes, CLASSES) | bit(self.vans, VANS);
        let (classes, vans) = (self.classes.unwrap_or_default(), self.vans.unwrap_or_default());
        Through::General { brought, classes, vans }
    }
}

/// The bits of the lists.
pub const CLASSES: u32 = 1;
pub const VANS: u32 = 2;

/// The function that a question is put to.
#[derive(Clone, Copy, Debug)]
pub enum Through<'a> {
    /// That of questions without lists.
    Plain,
    /// The general one, with the bits of the lists that are brought, and the bytes of every list, brought or not.
    General { brought: u32, classes: &'a [u8], vans: &'a [u8] },
}

/// What came of a question: its number, the values and the buffer before and after.
#[derive(PartialEq)]
pub struct Got {
    pub case: u32,
    pub values: (Vec<u64>, Vec<u64>),
    pub buffer: (Vec<u8>, Vec<u8>),
}

/// Puts a question with the values and the buffer inside larger ones, the same for the same seed. What is around them, and
/// what is only read, must be as it was.
pub fn call(seed: u64, question: &Question, through: Through) -> Got {
    let mut random = Random::new(seed);
    let (room, count) = question.asked.lent();
    let (mut bytes, mut numbers) =
        (Lent::bytes(&mut random, room), Lent::numbers(&mut random, count));
    let lists = match through {
        Through::Plain => [&[][..]; 2],
        Through::General { classes, vans, .. } => [classes, vans],
    };
    let read = [question.sheet, question.asked.cover(), lists[0], lists[1]];
    let own = read.map(<[u8]>::to_vec);
    let [sheet, cover, classes, vans] = &own;
    let given = Given { sheet, cover, classes, vans };
    let (values, buffer) = (numbers.pointer(), bytes.pointer());
    // SAFETY: each pointer is to as much as its length says, that of the values to as many numbers as the function has;
    // nothing overlaps.
    let case = unsafe {
        match through {
            Through::Plain => plain(question, &given, values, buffer),
            Through::General { brought, .. } => {
                // Every number but 0 asks for the best limit.
                let best = 1.max(seed as u32);
                general(question, best, brought, &given, values, buffer)
            }
        }
    };
    assert!(own == read, "what is only read was changed");
    Got { case, values: numbers.taken_back(), buffer: bytes.taken_back() }
}

/// What is only read, each in memory of its own that ends where it ends.
struct Given<'a> {
    sheet: &'a [u8],
    cover: &'a [u8],
    classes: &'a [u8],
    vans: &'a [u8],
}

/// Calls the function of questions without lists.
unsafe fn plain(question: &Question, given: &Given, values: *mut u64, buffer: *mut u8) -> u32 {
    let Question { asked, kind, k, .. } = *question;
    let (graph, length) = (given.sheet.as_ptr(), given.sheet.len());
    let (cover, size) = (given.cover.as_ptr(), given.cover.len());
    match asked {
        Asked::Trial { limit, room } => {
            planner_trial(kind, k, limit, graph, length, values, buffer, room)
        }
        Asked::Best { room } => planner_best(kind, k, graph, length, values, buffer, room),
        // This function has no other for questions without lists: cover stands for no bytes.
        Asked::Within { trials, room } => planner_within(
            trials, kind, k, graph, length, 0, cover, 0, cover, 0, values, buffer, room,
        ),
        Asked::Check { .. } => planner_check(kind, k, graph, length, cover, size, values),
        Asked::Walk { tree, room, .. } => {
            planner_walk(kind, k, graph, length, cover, size, tree, values, buffer, room)
        }
    }
}

/// Calls the general function; for the best limit with a number that asks for it, and a limit that a trial would be refused.
unsafe fn general(
    question: &Question,
    best: u32,
    lists: u32,
    given: &Given,
    values: *mut u64,
    buffer: *mut u8,
) -> u32 {
    let Question { asked, kind, k, .. } = *question;
    let (graph, length) = (given.sheet.as_ptr(), given.sheet.len());
    let (cover, size) = (given.cover.as_ptr(), given.cover.len());
    let (classes, m) = (given.classes.as_ptr(), given.classes.len());
    let (vans, v) = (given.vans.as_ptr(), given.vans.len());
    let ask = |asked, limit, room| {
        planner_ask(
            asked, limit, kind, k, graph, length, lists, classes, m, vans, v, values, buffer, room,
        )
    };
    match asked {
        Asked::Trial { limit, room } => ask(0, limit, room),
        Asked::Best { room } => ask(best, u64::MAX, room),
        Asked::Within { trials, room } => planner_within(
            trials, kind, k, graph, length, lists, classes, m, vans, v, values, buffer, room,
        ),
        Asked::Check { .. } => {
            planner_verify(kind, k, graph, length, lists, classes, m, vans, v, cover, size, values)
        }
        Asked::Walk { tree, room, .. } => planner_route(
            kind, k, graph, length, lists, classes, m, vans, v, cover, size, tree, values, buffer,
            room,
        ),
    }
}
