//! Records of the program `districts`, as bytes, and the text that the rules fix of the replies to them.
//!
//! A record, every field lowest byte first:
//!
//! ```text
//! question      2 bytes: 1 rooted trial, 2 unrooted trial, 3 rooted best, 4 unrooted best, 5 rooted check, 6 unrooted check,
//!               7 rooted with a number of trials, 8 unrooted with one
//! k             2 bytes
//! limit         4 bytes, unread in 3 to 6; in 7 and 8 it is the number of trials
//! room          2 bytes: how many bytes the lent buffer has, unread in 5 and 6
//! whole         2 bytes: 1 if the reply is printed whole, 0 if the rules leave a choice in it
//! sheet length  2 bytes
//! cover length  2 bytes, 0 in all but 5 and 6
//! lists         2 bytes, a bit for each list that may be brought beside the sheet: 1 classes, 2 vans; every other bit is 0
//! class length  2 bytes, 0 where no list of classes is brought
//! van length    2 bytes, 0 where no list of vans is brought
//! kept free     2 bytes, 0: room for the length of one list more
//! sheet         the graph's bytes, right or wrong
//! cover         the bytes of the filed cover, right or wrong
//! classes       the bytes of the list of classes, right or wrong
//! vans          the bytes of the list of vans, right or wrong
//! ```
//!
//! A list of no bytes is not the same as no list: where the length of a list is 0, `lists` says which of the two is brought.
//!
//! The reply to 1 to 4, 7 and 8 is printed as the program `rounds` prints it, rows of trees included, if the record says `whole`
//! or the reply is neither a cover nor "too low parts". Otherwise it is one of
//!
//! ```text
//! cover LIMIT yes TREES      the heaviest weight follows from free choices, so is not said
//! too low parts              how many parts and roots is a free choice, so not said
//! ```
//!
//! where `yes` stands if the check of a filed cover, asked with the record's kind, graph, lists and k, says yes to the
//! bytes written and names the reply's heaviest weight; otherwise `no`. Behind the reply to 7 and 8 there is always the line
//!
//! ```text
//! known TRIALS FLOOR SPENT   the trials made, the floor, and 1 if spent, else 0; all 0 behind `no cover` and `refused NUMBER`
//! ```
//!
//! The reply to 5 and 6 is `yes HEAVIEST` or `refused NUMBER`. Words and numbers stand one blank apart.

use crate::brought::Brought;
use crate::bytes::{put_four, put_two};
use crate::check::check_with;
use crate::cover::{decode, filed_length, gather};
use crate::fixed::is_fixed;
use crate::question::{Answer, Kind};
use crate::rounds::text as text_of;
use crate::within::{best_within_with, Known};
use crate::{best, trial};

/// What is asked.
#[derive(Clone, Debug, PartialEq, Eq)]
pub enum Asked {
    Trial {
        limit: u64,
        room: usize,
    },
    Best {
        room: usize,
    },
    /// The best limit as far as a number of trials comes to it.
    Within {
        trials: u64,
        room: usize,
    },
    Check {
        cover: Vec<u8>,
    },
}

/// A question to the planner or to the check.
#[derive(Clone, Debug, PartialEq, Eq)]
pub struct Record {
    pub asked: Asked,
    pub kind: Kind,
    pub k: usize,
    pub sheet: Vec<u8>,
    /// The list of classes, if one is brought.
    pub classes: Option<Vec<u8>>,
    /// The list of vans, if one is brought.
    pub vans: Option<Vec<u8>>,
}

impl Record {
    /// A question without lists.
    pub fn plain(asked: Asked, kind: Kind, k: usize, sheet: &[u8]) -> Record {
        Record { asked, kind, k, sheet: sheet.to_vec(), classes: None, vans: None }
    }

    /// The same question with a list of classes.
    pub fn with_classes(self, classes: &[u8]) -> Record {
        Record { classes: Some(classes.to_vec()), ..self }
    }

    /// The same question with a list of vans, as bytes.
    pub fn with_vans(self, vans: &[u8]) -> Record {
        Record { vans: Some(vans.to_vec()), ..self }
    }

    /// What the question brings.
    pub fn brought(&self) -> Brought<'_> {
        let (classes, vans) = (self.classes.as_deref(), self.vans.as_deref());
        Brought { sheet: &self.sheet, classes, vans }
    }

    /// The planner's answer, which is written to the buffer; nothing for a check.
    pub fn answer(&self, buffer: &mut [u8]) -> Option<Answer> {
        self.reply(buffer).map(|(answer, _)| answer)
    }

    /// The same with what is known besides, where a number of trials is given.
    pub fn reply(&self, buffer: &mut [u8]) -> Option<(Answer, Option<Known>)> {
        let (kind, brought, k) = (self.kind, self.brought(), self.k as u64);
        match self.asked {
            Asked::Trial { limit, .. } => {
                Some((trial::trial_with(kind, brought, k, limit, buffer), None))
            }
            Asked::Best { .. } => Some((best::best_with(kind, brought, k, buffer), None)),
            Asked::Within { trials, .. } => {
                let (answer, known) = best_within_with(kind, brought, k, trials, buffer).parted();
                Some((answer, Some(known)))
            }
            Asked::Check { .. } => None,
        }
    }

    /// The length of the lent buffer.
    pub fn room(&self) -> usize {
        match self.asked {
            Asked::Trial { room, .. } | Asked::Best { room } | Asked::Within { room, .. } => room,
            Asked::Check { .. } => 0,
        }
    }

    /// Whether the rules leave no choice in what is printed of the answer.
    pub fn is_whole(&self, answer: &Answer) -> bool {
        let limit = match (answer, &self.asked) {
            (Answer::Cover { limit, .. }, _) => *limit,
            (Answer::Parts { .. }, Asked::Trial { limit, .. }) => *limit,
            _ => return true,
        };
        let graph = self.brought().graph().expect("what is answered can be read");
        let crews = self.brought().crews(self.kind, graph.n, self.k as u64);
        is_fixed(self.kind, &graph, crews.expect("what is answered has its roots"), limit)
    }
}

/// Records as bytes.
pub fn encode(records: &[Record]) -> Vec<u8> {
    let mut out = Vec::new();
    for record in records {
        let (first, limit, cover) = match &record.asked {
            Asked::Trial { limit, .. } => (1, *limit, &[][..]),
            Asked::Best { .. } => (3, 77, &[][..]),
            Asked::Check { cover } => (5, 77, &cover[..]),
            Asked::Within { trials, .. } => (7, *trials, &[][..]),
        };
        put_two(&mut out, first + usize::from(record.kind == Kind::Unrooted));
        put_two(&mut out, record.k);
        put_four(&mut out, limit);
        put_two(&mut out, record.room());
        let answer = record.answer(&mut vec![0; record.room()]);
        let is_whole = answer.is_none_or(|answer| record.is_whole(&answer));
        put_two(&mut out, usize::from(is_whole));
        put_two(&mut out, record.sheet.len());
        put_two(&mut out, cover.len());
        let lists = [record.classes.as_deref(), record.vans.as_deref()];
        let bits = lists.iter().zip([1, 2]).filter(|(list, _)| list.is_some());
        put_two(&mut out, bits.map(|(_, bit)| bit).sum());
        lists.iter().for_each(|list| put_two(&mut out, list.map_or(0, <[u8]>::len)));
        put_two(&mut out, 0);
        out.extend_from_slice(&record.sheet);
        out.extend_from_slice(cover);
        lists.iter().for_each(|list| out.extend_from_slice(list.unwrap_or(&[])));
    }
    out
}

/// The lines of every record.
pub fn text(records: &[Record]) -> String {
    records.iter().map(record_text).collect()
}

/// What the rules fix of the reply to a record.
fn record_text(record: &Record) -> String {
    let (kind, brought, k) = (record.kind, record.brought(), record.k as u64);
    if let Asked::Check { cover } = &record.asked {
        return match check_with(kind, brought, k, cover) {
            Ok(heaviest) => format!("yes {heaviest}\n"),
            Err(number) => format!("refused {number}\n"),
        };
    }
    let mut buffer = vec![0; record.room()];
    let (answer, known) = record.reply(&mut buffer).expect("all but checks are answered");
    let text = answer_text(record, record.is_whole(&answer), &answer, &buffer);
    text + &known.map_or(String::new(), known_text)
}

/// The line that stands behind an answer to a number of trials.
pub fn known_text(known: Known) -> String {
    format!("known {} {} {}\n", known.trials, known.floor, u8::from(known.spent))
}

/// What is printed of a planner's answer to a record and of the buffer it leaves, whole or without what is free.
pub fn answer_text(record: &Record, is_whole: bool, answer: &Answer, buffer: &[u8]) -> String {
    let (kind, brought, k) = (record.kind, record.brought(), record.k as u64);
    match answer {
        Answer::Cover { limit, heaviest } => {
            let length = filed_length(buffer).expect("a buffer has four bytes");
            let cover = &buffer[..length];
            let trees = gather(&decode(cover).expect("an accepted cover was written"));
            if is_whole {
                let graph = brought.graph().expect("what is accepted can be read");
                return text_of(answer, Some((&graph, &trees)));
            }
            let said = check_with(kind, brought, k, cover) == Ok(*heaviest);
            format!("cover {limit} {} {}\n", if said { "yes" } else { "no" }, trees.len())
        }
        Answer::Parts { .. } if !is_whole => "too low parts\n".to_string(),
        other => text_of(other, None),
    }
}
