//! One question put to the trial, the best limit, the check and the walk alike.

use super::buffer_of;
use reference::best::best_with;
use reference::brought::Brought;
use reference::check::check_with;
use reference::question::{Answer, Kind};
use reference::trial::trial_with;
use reference::walk::walk_with;

/// A question of every kind: what is brought, k, the limit, the lent buffer's length, a filed cover and one of its trees.
pub struct Asked<'a> {
    pub brought: Brought<'a>,
    pub k: u64,
    pub limit: u64,
    pub room: usize,
    pub cover: &'a [u8],
    pub tree: usize,
}

impl Asked<'_> {
    /// What the trial, the best limit, the check and the walk answer, each with the buffer it leaves.
    pub fn said(&self, kind: Kind) -> [(String, Vec<u8>); 4] {
        let Asked { brought, k, limit, room, cover, tree } = *self;
        let with = |answer: &dyn Fn(&mut [u8]) -> String| {
            let mut lent = buffer_of(room);
            (answer(&mut lent), lent)
        };
        [
            with(&|lent| shown(&trial_with(kind, brought, k, limit, lent))),
            with(&|lent| shown(&best_with(kind, brought, k, lent))),
            with(&|_| format!("{:?}", check_with(kind, brought, k, cover))),
            with(&|lent| format!("{:?}", walk_with(kind, brought, k, cover, tree, lent))),
        ]
    }

    /// The numbers of those four, 0 where it is not refused; a refused one leaves the buffer.
    pub fn numbers(&self, kind: Kind) -> [u16; 4] {
        self.said(kind).map(|(said, lent)| {
            let Some(number) = said.strip_prefix("Err(") else { return 0 };
            assert_eq!(lent, buffer_of(self.room), "{said}");
            number.trim_end_matches(')').parse().expect("a number")
        })
    }
}

/// An answer, a refusal as that of the check is shown.
fn shown(answer: &Answer) -> String {
    match answer {
        Answer::Refused(number) => format!("Err({number})"),
        other => format!("{other:?}"),
    }
}
