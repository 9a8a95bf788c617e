//! The planners that are measured, as the same five functions.

#[cfg(linked)]
use crate::library::{self, Library};
use crate::question::{Question, CLASSES, VANS};
use crate::{best, check, trial, walk};

/// A planner.
#[derive(Clone, Copy)]
pub enum Planner {
    /// The Rust version in this package.
    Plain,
    /// A library, with its name in the table.
    #[cfg(linked)]
    Linked(&'static str, Library),
}

/// All that are measured: the linked library, if it was there when this was built, the plain Rust version, and the library of an
/// earlier state, if one was given.
pub fn planners() -> Vec<Planner> {
    linked().into_iter().chain([Planner::Plain]).chain(earlier()).collect()
}

/// The linked library.
pub fn linked() -> Option<Planner> {
    #[cfg(linked)]
    return Some(Planner::Linked("planner_c", library::now()));
    #[cfg(not(linked))]
    None
}

/// The name of the library of an earlier state.
const EARLIER: &str = "before";

/// The library of an earlier state.
fn earlier() -> Option<Planner> {
    #[cfg(earlier)]
    return Some(Planner::Linked(EARLIER, library::before()));
    #[cfg(not(earlier))]
    None
}

impl Planner {
    /// The name in the table.
    pub fn name(&self) -> &'static str {
        match self {
            Planner::Plain => "Rust",
            #[cfg(linked)]
            Planner::Linked(name, _) => name,
        }
    }

    /// Whether it is the library of an earlier state.
    pub fn is_earlier(&self) -> bool {
        self.name() == EARLIER
    }

    /// The bits of the lists that it takes; the library of an earlier state may not take all.
    pub fn lists(&self) -> u32 {
        match self {
            Planner::Plain => CLASSES | VANS,
            #[cfg(linked)]
            Planner::Linked(_, library) => library.lists(),
        }
    }

    /// Whether it is asked for few trials; the library of an earlier state may not be.
    pub fn has_within(&self) -> bool {
        match self {
            Planner::Plain => true,
            #[cfg(linked)]
            Planner::Linked(_, library) => library.has_within(),
        }
    }

    /// A trial at a limit.
    pub fn trial(
        &self,
        question: Question,
        limit: u64,
        values: &mut [u64; 3],
        buffer: &mut [u8],
    ) -> u32 {
        match self {
            Planner::Plain => trial::trial(question, limit, values, buffer),
            #[cfg(linked)]
            Planner::Linked(_, library) => library.trial(question, limit, values, buffer),
        }
    }

    /// The best limit.
    pub fn best(&self, question: Question, values: &mut [u64; 3], buffer: &mut [u8]) -> u32 {
        match self {
            Planner::Plain => best::best(question, values, buffer),
            #[cfg(linked)]
            Planner::Linked(_, library) => library.best(question, values, buffer),
        }
    }

    /// The best limit as far as so many trials come.
    pub fn within(
        &self,
        question: Question,
        trials: usize,
        values: &mut [u64; 6],
        buffer: &mut [u8],
    ) -> u32 {
        match self {
            Planner::Plain => best::within(question, trials, values, buffer),
            #[cfg(linked)]
            Planner::Linked(_, library) => library.within(question, trials, values, buffer),
        }
    }

    /// The check of a filed cover.
    pub fn check(&self, question: Question, cover: &[u8], values: &mut [u64; 3]) -> u32 {
        match self {
            Planner::Plain => check::check(question, cover, values),
            #[cfg(linked)]
            Planner::Linked(_, library) => library.check(question, cover, values),
        }
    }

    /// The walk of one tree of a filed cover.
    pub fn walk(
        &self,
        question: Question,
        cover: &[u8],
        tree: usize,
        values: &mut [u64; 2],
        buffer: &mut [u8],
    ) -> u32 {
        match self {
            Planner::Plain => walk::walk(question, cover, tree, values, buffer),
            #[cfg(linked)]
            Planner::Linked(_, library) => library.walk(question, cover, tree, values, buffer),
        }
    }
}
