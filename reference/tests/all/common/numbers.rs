//! The number of a record's question, and the number that it is refused with.

use super::surfaces::checked;
use reference::districts::{Asked, Record};
use reference::judge_districts::own_reply;
use reference::question::Kind;

/// The number of the question that a record asks.
pub fn question(record: &Record) -> usize {
    let first = match record.asked {
        Asked::Trial { .. } => 1,
        Asked::Best { .. } => 3,
        Asked::Check { .. } => 5,
        Asked::Within { .. } => 7,
    };
    first + usize::from(record.kind == Kind::Unrooted)
}

/// The number that a record is refused with, 0 where it is answered.
pub fn number(record: &Record) -> u16 {
    let of_planner = || own_reply(record).expect("no check").case as u16;
    let case = match checked(record, record.brought()) {
        Some(said) => said.err().unwrap_or(0),
        None => of_planner(),
    };
    if case < 5 {
        0
    } else {
        case
    }
}
