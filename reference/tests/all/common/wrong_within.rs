//! Readings of request A.6 with something in them exchanged: how a wrong one answers a record with a number of trials, and
//! whether that shows in the text.

use reference::best::{accepted, admit, cover_exists};
use reference::cover::{heaviest, Tree};
use reference::districts::{answer_text, known_text, text, Asked, Record};
use reference::graph::{read, Graph};
use reference::made_within::within;
use reference::question::{Answer, Kind};
use reference::trial::write;
use reference::within::{Known, TRIALS};

/// An admitted question.
#[derive(Clone, Copy)]
pub struct Put<'a> {
    pub kind: Kind,
    pub graph: &'a Graph,
    pub roots: &'a [usize],
    /// The number of trials as it is read.
    pub p: u64,
    /// The sum of the weights that the search begins with.
    pub sum: u64,
    /// The sum of the weights as the sheet gives them.
    pub given: u64,
}

impl Put<'_> {
    /// The cover of a trial, if it is accepted.
    pub fn trial(&self, limit: u64) -> Option<Vec<Tree>> {
        accepted(self.kind, self.graph, self.roots, limit)
    }

    /// The heaviest weight of some trees.
    pub fn heaviest(&self, trees: &[Tree]) -> u64 {
        heaviest(self.graph, trees)
    }

    /// The right search with another number of trials.
    pub fn searched(&self, p: u64) -> Come {
        halved(&Put { p, ..*self }, |low, high| (low + high) / 2, 1)
    }
}

/// Where a search came to.
#[derive(Clone, Default)]
pub struct Come {
    pub low: u64,
    pub high: u64,
    /// The cover of the last limit accepted.
    pub cover: Vec<Tree>,
    /// The limits tried, each with its cover if it was accepted.
    pub tried: Vec<(u64, Option<Vec<Tree>>)>,
}

impl Come {
    /// Makes one trial more, whose limit becomes high or low; whether it was accepted.
    pub fn try_at(&mut self, put: &Put, limit: u64) -> bool {
        let found = put.trial(limit);
        self.tried.push((limit, found.clone()));
        match found {
            Some(cover) => (self.high, self.cover) = (limit, cover),
            None => self.low = limit,
        }
        self.tried.last().is_some_and(|tried| tried.1.is_some())
    }

    /// How many trials were made.
    pub fn made(&self) -> u64 {
        self.tried.len() as u64
    }

    /// How far high is above low.
    pub fn apart(&self) -> u64 {
        self.high.saturating_sub(self.low)
    }

    /// Limit 0, and the sum if that is not accepted; whether the search goes on.
    pub fn begin(&mut self, put: &Put) -> bool {
        !self.try_at(put, 0) && self.try_at(put, put.sum)
    }
}

/// A search of p trials by some middle of low and high, down to a difference.
pub fn halved(put: &Put, middle: fn(u64, u64) -> u64, end: u64) -> Come {
    let mut come = Come::default();
    let goes_on = come.begin(put);
    while goes_on && come.apart() > end && come.made() < put.p {
        come.try_at(put, middle(come.low, come.high));
    }
    come
}

/// How a planner reads request A.6.
#[derive(Clone, Copy)]
pub struct Reading {
    /// What is read of a question.
    pub read: fn(&Record) -> Record,
    /// The number of trials that is read.
    pub p: fn(u64) -> u64,
    /// Whether it is lawful.
    pub is_lawful: fn(u64) -> bool,
    /// The number of the refusal otherwise, and those that come behind it.
    pub number: u16,
    pub behind: &'static [u16],
    /// Where an unlawful number of trials is passed.
    pub is_passed: fn(&Put) -> bool,
    /// What is known where there is no cover.
    pub without: fn(&Put) -> Known,
    pub search: fn(&Put) -> Come,
    pub trials: fn(&Come, &Put) -> u64,
    pub floor: fn(&Come, &Put) -> u64,
    pub is_spent: fn(&Come, &Put) -> bool,
    /// The limit and the trees of the reply.
    pub filed: fn(&Come, &Put) -> (u64, Vec<Tree>),
}

/// The right reading.
pub const RIGHT: Reading = Reading {
    read: Record::clone,
    p: |p| p,
    is_lawful: |p| TRIALS.contains(&p),
    number: 56,
    behind: &[],
    is_passed: |_| false,
    without: |_| Known::default(),
    search: |put| put.searched(put.p),
    trials: |come, _| come.made(),
    floor: |come, _| if come.high == 0 { 0 } else { come.low + 1 },
    is_spent: |come, _| come.apart() > 1,
    filed: |come, _| (come.high, come.cover.clone()),
};

impl Reading {
    /// The answer to a record with a number of trials, which is written to the buffer, and what is known besides.
    fn answer(&self, record: &Record, buffer: &mut [u8]) -> (Answer, Known) {
        let Asked::Within { trials, .. } = record.asked else { panic!("{record:?}") };
        let (record, p) = ((self.read)(record), (self.p)(trials));
        let (kind, is_lawful) = (record.kind, (self.is_lawful)(p));
        let refused = |number| (Answer::Refused(number), Known::default());
        let (graph, roots) = match admit(kind, record.brought(), record.k as u64, buffer.len()) {
            Err(number) if !is_lawful && self.behind.contains(&number) => {
                return refused(self.number)
            }
            Err(number) => return refused(number),
            Ok(admitted) => admitted,
        };
        let given = read(&record.sheet).expect("a right sheet").total();
        let put = Put { kind, graph: &graph, roots: &roots, p, sum: graph.total(), given };
        if !is_lawful && !(self.is_passed)(&put) {
            return refused(self.number);
        }
        if !cover_exists(kind, &graph, &roots) {
            return (Answer::NoCover, (self.without)(&put));
        }
        self.found(&put, buffer)
    }

    /// The same where there is a cover.
    fn found(&self, put: &Put, buffer: &mut [u8]) -> (Answer, Known) {
        let come = (self.search)(put);
        let (limit, trees) = (self.filed)(&come, put);
        write(&trees, buffer);
        let (trials, floor) = ((self.trials)(&come, put), (self.floor)(&come, put));
        let known = Known { trials, floor, spent: (self.is_spent)(&come, put) };
        (Answer::Cover { limit, heaviest: put.heaviest(&trees) }, known)
    }

    /// Whether what is printed of this reading's answer to a record is wrong.
    pub fn shows(&self, record: &Record, due: &str) -> bool {
        let mut buffer = vec![0; record.room()];
        let is_whole = record.is_whole(&record.answer(&mut buffer).expect("no check"));
        let mut buffer = vec![0; record.room()];
        let (answer, known) = self.answer(record, &mut buffer);
        answer_text(record, is_whole, &answer, &buffer) + &known_text(known) != due
    }
}

/// A wrong reading, and what is wrong with it.
pub type Wrong = (&'static str, Reading);

/// In how many records a wrong reading must show.
const LEAST: usize = 5;

/// Each wrong reading shows in the text of the records, but for those of the largest; the right one shows in none.
pub fn assert_shown(wrong: &[Wrong]) {
    let small = within().into_iter().filter(|record| record.sheet.len() < 400);
    let small: Vec<(Record, String)> =
        small.map(|record| (record.clone(), text(&[record]))).collect();
    let shown = |reading: &Reading| {
        small.iter().filter(|(record, due)| reading.shows(record, due)).take(LEAST).count()
    };
    assert_eq!(shown(&RIGHT), 0);
    for (name, reading) in wrong {
        assert_eq!(shown(reading), LEAST, "{name}");
    }
}
