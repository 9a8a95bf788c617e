//! Questions with lists of vans, put to the quick version and to `reference/`: trials, best limits, checks and walks.

use bench::planners::{linked, Planner};
use bench::question::BUFFER;
use bench::walk::WALK_BUFFER;
use reference::best::best_with;
use reference::brought::Brought;
use reference::cover::filed_length;
use reference::question::{Answer, Kind};
use reference::walk::walk_with;

use crate::held::{checked, judged_with, question, FILL, VALUE};

/// How often each number is met in trials and best limits, in checks, and in walks.
pub type Met = [[usize; 64]; 3];

/// A question that is put to both.
#[derive(Clone, Copy, Debug)]
pub struct Put<'a> {
    pub kind: Kind,
    pub k: usize,
    pub brought: Brought<'a>,
}

impl Put<'_> {
    /// A trial, or with no limit the best limit.
    pub fn plan(self, limit: Option<u64>, room: usize, met: &mut Met) {
        let said = judged_with(self.kind, self.k, limit, self.brought, room);
        let case = said.unwrap_or_else(|why| panic!("{self:?} {limit:?} {room}: {why}"));
        met[0][case as usize] += 1;
    }

    /// The check of cover bytes, and the walks of the first trees, of the last and of one past it.
    pub fn file(self, cover: &[u8], met: &mut Met) {
        let said = checked(self.kind, self.k, self.brought, cover);
        let case = said.unwrap_or_else(|why| panic!("{self:?} {cover:?}: {why}"));
        met[1][case as usize] += 1;
        let last = self.k.clamp(1, 33) - 1;
        for tree in [0, 1, last, last + 1] {
            self.walk(cover, tree, WALK_BUFFER, met);
        }
        self.walk(cover, last, WALK_BUFFER - 1, met);
    }

    /// The walk of a tree, of the linked library too where it is linked.
    fn walk(self, cover: &[u8], tree: usize, room: usize, met: &mut Met) {
        let Put { kind, k, brought } = self;
        let mut right = vec![FILL; room];
        let (number, due) = match walk_with(kind, brought, k as u64, cover, tree, &mut right) {
            Ok((stops, length)) => (0, [stops as u64, length]),
            Err(number) => (number, [VALUE; 2]),
        };
        let question = question(kind, k, brought);
        for planner in linked().into_iter().chain([Planner::Plain]) {
            let (mut values, mut buffer) = ([VALUE; 2], vec![FILL; room]);
            let case = planner.walk(question, cover, tree, &mut values, &mut buffer);
            assert_eq!((case, values), (number.into(), due), "{self:?} {cover:?} tree {tree}");
            assert!(buffer == right, "{self:?} {cover:?} tree {tree}");
        }
        met[2][usize::from(number)] += 1;
    }

    /// The reference's best limit and its cover, if there is one.
    pub fn best(self) -> Option<(u64, Vec<u8>)> {
        let mut buffer = vec![0; BUFFER];
        let answer = best_with(self.kind, self.brought, self.k as u64, &mut buffer);
        let length = filed_length(&buffer).expect("four bytes");
        match answer {
            Answer::Cover { limit, .. } => Some((limit, buffer[..length].to_vec())),
            _ => None,
        }
    }
}

/// The bytes of a list.
pub fn listed(vans: impl IntoIterator<Item = usize>) -> Vec<u8> {
    vans.into_iter().flat_map(|van| (van as u16).to_le_bytes()).collect()
}

/// Fails unless each of some numbers is met.
pub fn assert_met(met: &[usize; 64], numbers: &[usize]) {
    for &number in numbers {
        assert!(met[number] > 0, "{number} is not met");
    }
}
