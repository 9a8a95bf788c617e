//! Readings of the rules with something in them exchanged: how a wrong one answers a record, and whether that shows.

use super::surfaces::checked;
use reference::best::cover_exists;
use reference::check::check_on;
use reference::cover::Tree;
use reference::districts::{answer_text, Asked, Record};
use reference::graph::Graph;
use reference::judge_districts::judge_reply;
use reference::question::{Answer, Kind, BUFFER, LIMIT};
use reference::replies::{full_of, FILL};
use reference::trial::{file, run, Outcome};
use reference::within::TRIALS;

/// The graph and the roots of a record, or the number that it is refused with before a trial or a check.
pub type Admitted = Result<(Graph, Vec<usize>), u16>;

/// How a planner and a check read the rules.
#[derive(Clone, Copy)]
pub struct Reading {
    /// The graph of a record, or the number that what it brings is refused with.
    pub graph: fn(&Record) -> Result<Graph, u16>,
    /// The root of each tree of a record on n vertices, or 21 or 55.
    pub crews: fn(&Record, usize) -> Result<Vec<usize>, u16>,
    /// What is admitted, the numbers being tried in their order.
    pub admitted: fn(&Reading, &Record) -> Admitted,
    /// A trial at a limit.
    pub run: fn(Kind, &Graph, &[usize], u64) -> Outcome,
    /// Whether any cover exists.
    pub exists: fn(Kind, &Graph, &[usize]) -> bool,
    /// Whether the search for the best limit begins with a trial at 0.
    pub tries_0: bool,
    /// The check of cover bytes.
    pub check: fn(Kind, &Graph, &[usize], &[u8]) -> Result<u64, u16>,
}

/// The right reading.
pub const RIGHT: Reading = Reading {
    graph: |record| record.brought().graph(),
    crews: |record, n| record.brought().crews(record.kind, n, record.k as u64),
    admitted,
    run: |kind, graph, roots, limit| run(kind, graph, roots, limit),
    exists: |kind, graph, roots| cover_exists(kind, graph, roots),
    tries_0: true,
    check: |kind, graph, roots, cover| check_on(kind, graph, roots, cover),
};

/// Tries the numbers of sheet and classes, of k and vans, and of limit and buffer in this order.
fn admitted(reading: &Reading, record: &Record) -> Admitted {
    let graph = (reading.graph)(record)?;
    let roots = (reading.crews)(record, graph.n)?;
    of_limit_and_room(record)?;
    Ok((graph, roots))
}

/// 22, 23 and 56 of a record.
pub fn of_limit_and_room(record: &Record) -> Result<(), u16> {
    match record.asked {
        Asked::Trial { limit, .. } if limit > LIMIT => Err(22),
        Asked::Check { .. } => Ok(()),
        _ if record.room() < BUFFER => Err(23),
        Asked::Within { trials, .. } if !TRIALS.contains(&trials) => Err(56),
        _ => Ok(()),
    }
}

impl Reading {
    /// The cover of a trial, if it is accepted.
    fn accepted(
        &self,
        kind: Kind,
        graph: &Graph,
        roots: &[usize],
        limit: u64,
    ) -> Option<Vec<Tree>> {
        match (self.run)(kind, graph, roots, limit) {
            Outcome::Cover(trees) => Some(trees),
            _ => None,
        }
    }

    /// The limit that p trials come to, with its cover; nothing where no cover is thought to exist.
    fn search(
        &self,
        kind: Kind,
        graph: &Graph,
        roots: &[usize],
        p: u64,
    ) -> Option<(u64, Vec<Tree>)> {
        if !(self.exists)(kind, graph, roots) {
            return None;
        }
        if let Some(trees) = self.accepted(kind, graph, roots, 0).filter(|_| self.tries_0) {
            return Some((0, trees));
        }
        let (mut low, mut high) = (0, graph.total());
        let mut cover = self.accepted(kind, graph, roots, high)?;
        for _ in 2..p {
            if high - low <= 1 {
                break;
            }
            let middle = (low + high) / 2;
            match self.accepted(kind, graph, roots, middle) {
                Some(trees) => (high, cover) = (middle, trees),
                None => low = middle,
            }
        }
        Some((high, cover))
    }

    /// The planner's answer to a record of a trial or a search, which is written to the buffer.
    fn answer(&self, record: &Record, buffer: &mut [u8]) -> Answer {
        let (graph, roots) = match (self.admitted)(self, record) {
            Ok(admitted) => admitted,
            Err(number) => return Answer::Refused(number),
        };
        if let Asked::Trial { limit, .. } = record.asked {
            return file(&graph, limit, &(self.run)(record.kind, &graph, &roots, limit), buffer);
        }
        let p = match record.asked {
            Asked::Within { trials, .. } => trials,
            _ => u64::MAX,
        };
        match self.search(record.kind, &graph, &roots, p) {
            Some((limit, trees)) => file(&graph, limit, &Outcome::Cover(trees), buffer),
            None => Answer::NoCover,
        }
    }

    /// Whether this reading's answer to a record is wrong, and whether what is printed of it is.
    pub fn shows(&self, record: &Record) -> (bool, bool) {
        if let Asked::Check { cover } = &record.asked {
            let said = (self.admitted)(self, record);
            let said =
                said.and_then(|(graph, roots)| (self.check)(record.kind, &graph, &roots, cover));
            let is_wrong = checked(record, record.brought()) != Some(said);
            return (is_wrong, is_wrong);
        }
        let answered = |reading: &Reading| {
            let mut buffer = vec![FILL; record.room()];
            (reading.answer(record, &mut buffer), buffer)
        };
        let (due, (said, buffer)) = (answered(&RIGHT), answered(self));
        let is_whole = record.is_whole(&due.0);
        let is_wrong = judge_reply(record, &full_of(&said, &buffer)).is_err();
        let printed = answer_text(record, is_whole, &said, &buffer);
        (is_wrong, printed != answer_text(record, is_whole, &due.0, &due.1))
    }
}
