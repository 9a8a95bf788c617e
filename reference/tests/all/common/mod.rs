//! What several tables of cases share.
#![allow(dead_code, unused_imports)]

pub mod asking;
pub mod crossings;
pub mod numbers;
pub mod other;
pub mod readings;
pub mod replies;
pub mod surfaces;
pub mod vans;
pub mod within;
pub mod wrong_gates;
pub mod wrong_searches;
pub mod wrong_van_lists;
pub mod wrong_vans;
pub mod wrong_within;

use std::sync::OnceLock;

use reference::bytes::put_two;
use reference::districts::Record;
use reference::graph::{sheet, Graph};
use reference::made_districts::records;
pub use reference::made_questions::input;
use reference::question::{Answer, Kind, BUFFER};

/// The edges (end, end, weight) of sheet N, which has four vertices.
pub const N: &[(usize, usize, u64)] = &[(0, 2, 3), (2, 3, 3), (1, 3, 5)];

pub const BOTH: [Kind; 2] = [Kind::Rooted, Kind::Unrooted];

/// The bytes of sheet N.
pub fn sheet_n() -> Vec<u8> {
    sheet(4, N)
}

/// The graph of sheet N.
pub fn graph_n() -> Graph {
    Graph::new(4, N)
}

/// A lent buffer with no two near bytes alike.
pub fn buffer_of(length: usize) -> Vec<u8> {
    (0..length).map(|i| (i % 251) as u8 ^ 0xa5).collect()
}

/// A lent buffer of the least length, made once and copied.
pub fn buffer() -> Vec<u8> {
    static ONCE: OnceLock<Vec<u8>> = OnceLock::new();
    ONCE.get_or_init(|| buffer_of(BUFFER)).clone()
}

/// The records of the program `districts`, made once.
pub fn made_records() -> &'static [Record] {
    static ONCE: OnceLock<Vec<Record>> = OnceLock::new();
    ONCE.get_or_init(records)
}

/// The question number of a trial of a kind, or of a best limit.
pub fn question(kind: Kind, trial: bool) -> usize {
    match (kind, trial) {
        (Kind::Rooted, true) => 1,
        (Kind::Unrooted, true) => 2,
        (Kind::Rooted, false) => 3,
        (Kind::Unrooted, false) => 4,
    }
}

/// Whether an answer says that a limit is too low.
pub fn is_too_low(answer: &Answer) -> bool {
    matches!(answer, Answer::Stop(_) | Answer::Parts { .. } | Answer::Needs(_))
}

/// Cover bytes of starts and entries (tree, edge), right or wrong alike.
pub fn filing(starts: &[usize], entries: &[(usize, usize)]) -> Vec<u8> {
    let mut out = Vec::new();
    put_two(&mut out, starts.len());
    put_two(&mut out, entries.len());
    starts.iter().for_each(|&start| put_two(&mut out, start));
    entries.iter().for_each(|entry| put_two(&mut out, entry.0));
    entries.iter().for_each(|entry| put_two(&mut out, entry.1));
    out
}
