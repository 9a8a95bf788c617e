//! Linked libraries: the functions of `include/planner.h`, by the names that each library exports them under.

use crate::question::{Question, CLASSES, VANS};

type Bytes = *const u8;
type Room = *mut u8;
type Values = *mut u64;

// The types of the functions, as the header has them.
type Trial = unsafe extern "C" fn(u32, usize, u64, Bytes, usize, Values, Room, usize) -> u32;
type Best = unsafe extern "C" fn(u32, usize, Bytes, usize, Values, Room, usize) -> u32;
type Check = unsafe extern "C" fn(u32, usize, Bytes, usize, Bytes, usize, Values) -> u32;
#[rustfmt::skip]
type Walk = unsafe extern "C" fn(
    u32, usize, Bytes, usize, Bytes, usize, usize, Values, Room, usize,
) -> u32;
#[rustfmt::skip]
type Ask = unsafe extern "C" fn(
    u32, u64, u32, usize, Bytes, usize, u32, Bytes, usize, Bytes, usize, Values, Room, usize,
) -> u32;
#[rustfmt::skip]
type Within = unsafe extern "C" fn(
    usize, u32, usize, Bytes, usize, u32, Bytes, usize, Bytes, usize, Values, Room, usize,
) -> u32;
#[rustfmt::skip]
type Verify = unsafe extern "C" fn(
    u32, usize, Bytes, usize, u32, Bytes, usize, Bytes, usize, Bytes, usize, Values,
) -> u32;
#[rustfmt::skip]
type Route = unsafe extern "C" fn(
    u32, usize, Bytes, usize, u32, Bytes, usize, Bytes, usize, Bytes, usize, usize, Values, Room, usize,
) -> u32;

/// The general functions of the states before questions had vans: the same without that list.
#[cfg(earlier_lists = "classes")]
mod by_classes {
    use super::{Bytes, Room, Values};

    #[rustfmt::skip]
    pub type Ask = unsafe extern "C" fn(
        u32, u64, u32, usize, Bytes, usize, u32, Bytes, usize, Values, Room, usize,
    ) -> u32;
    #[rustfmt::skip]
    pub type Verify = unsafe extern "C" fn(
        u32, usize, Bytes, usize, u32, Bytes, usize, Bytes, usize, Values,
    ) -> u32;
    #[rustfmt::skip]
    pub type Route = unsafe extern "C" fn(
        u32, usize, Bytes, usize, u32, Bytes, usize, Bytes, usize, usize, Values, Room, usize,
    ) -> u32;
}

/// What `planner_ask` is asked.
const TRIAL: u32 = 0;
const BEST: u32 = 1;

/// The functions of a library: those of questions without lists, and the general ones and that of few trials, if it has them.
#[derive(Clone, Copy)]
pub struct Library {
    trial: Trial,
    best: Best,
    check: Check,
    walk: Walk,
    general: Option<General>,
    within: Option<Within>,
}

#[derive(Clone, Copy)]
enum General {
    All {
        ask: Ask,
        verify: Verify,
        route: Route,
    },
    #[cfg(earlier_lists = "classes")]
    Classes {
        ask: by_classes::Ask,
        verify: by_classes::Verify,
        route: by_classes::Route,
    },
}

/// The function that a library exports under a name.
macro_rules! exported {
    ($name:literal: $type:ty) => {{
        extern "C" {
            #[link_name = $name]
            fn exported();
        }
        // SAFETY: a function of that name has that type, as the header says.
        unsafe { std::mem::transmute::<unsafe extern "C" fn(), $type>(exported) }
    }};
}

/// The library of this state.
pub fn now() -> Library {
    Library {
        trial: exported!("planner_trial": Trial),
        best: exported!("planner_best": Best),
        check: exported!("planner_check": Check),
        walk: exported!("planner_walk": Walk),
        general: Some(General::All {
            ask: exported!("planner_ask": Ask),
            verify: exported!("planner_verify": Verify),
            route: exported!("planner_route": Route),
        }),
        within: Some(exported!("planner_within": Within)),
    }
}

/// The library of an earlier state.
#[cfg(earlier)]
pub fn before() -> Library {
    Library {
        trial: exported!("before_trial": Trial),
        best: exported!("before_best": Best),
        check: exported!("before_check": Check),
        walk: exported!("before_walk": Walk),
        #[cfg(earlier_lists = "all")]
        general: Some(General::All {
            ask: exported!("before_ask": Ask),
            verify: exported!("before_verify": Verify),
            route: exported!("before_route": Route),
        }),
        #[cfg(earlier_lists = "classes")]
        general: Some(General::Classes {
            ask: exported!("before_ask": by_classes::Ask),
            verify: exported!("before_verify": by_classes::Verify),
            route: exported!("before_route": by_classes::Route),
        }),
        #[cfg(earlier_lists = "none")]
        general: None,
        #[cfg(earlier_within)]
        within: Some(exported!("before_within": Within)),
        #[cfg(not(earlier_within))]
        within: None,
    }
}

// SAFETY of all calls: the functions ask nothing of the numbers; each pointer is to as many bytes as its length says, that of the
// values to three numbers, of a walk's to two, of few trials' to six, and what is written is apart from everything else, being borrowed mutably.
impl Library {
    /// The bits of the lists that it takes.
    pub fn lists(&self) -> u32 {
        match self.general {
            None => 0,
            Some(General::All { .. }) => CLASSES | VANS,
            #[cfg(earlier_lists = "classes")]
            Some(General::Classes { .. }) => CLASSES,
        }
    }

    /// Whether it is asked for few trials.
    pub fn has_within(&self) -> bool {
        self.within.is_some()
    }

    /// The general functions; questions with lists are put to no library without them.
    fn general(&self) -> General {
        self.general.expect("a library that takes lists")
    }

    pub fn trial(
        &self,
        question: Question,
        limit: u64,
        values: &mut [u64; 3],
        buffer: &mut [u8],
    ) -> u32 {
        let Question { kind, k, sheet, .. } = question;
        if question.brought() != 0 {
            return self.ask(TRIAL, limit, question, values, buffer);
        }
        let (graph, length) = (sheet.as_ptr(), sheet.len());
        let (values, room, most) = (values.as_mut_ptr(), buffer.as_mut_ptr(), buffer.len());
        unsafe { (self.trial)(kind, k, limit, graph, length, values, room, most) }
    }

    pub fn best(&self, question: Question, values: &mut [u64; 3], buffer: &mut [u8]) -> u32 {
        let Question { kind, k, sheet, .. } = question;
        if question.brought() != 0 {
            return self.ask(BEST, 0, question, values, buffer);
        }
        let (graph, length) = (sheet.as_ptr(), sheet.len());
        let (values, room, most) = (values.as_mut_ptr(), buffer.as_mut_ptr(), buffer.len());
        unsafe { (self.best)(kind, k, graph, length, values, room, most) }
    }

    pub fn within(
        &self,
        question: Question,
        trials: usize,
        values: &mut [u64; 6],
        buffer: &mut [u8],
    ) -> u32 {
        let within = self.within.expect("a library that is asked for few trials");
        let Question { kind, k, sheet, .. } = question;
        let (graph, length, lists) = (sheet.as_ptr(), sheet.len(), question.brought());
        let [(a, m), (b, twice_k)] = [question.classes, question.vans].map(list);
        let (values, room, most) = (values.as_mut_ptr(), buffer.as_mut_ptr(), buffer.len());
        unsafe {
            within(trials, kind, k, graph, length, lists, a, m, b, twice_k, values, room, most)
        }
    }

    #[rustfmt::skip]
    fn ask(
        &self,
        asked: u32,
        limit: u64,
        question: Question,
        values: &mut [u64; 3],
        buffer: &mut [u8],
    ) -> u32 {
        let Question { kind, k, sheet, .. } = question;
        let (graph, length, lists) = (sheet.as_ptr(), sheet.len(), question.brought());
        let [(classes, m), (vans, twice_k)] = [question.classes, question.vans].map(list);
        let (values, room, most) = (values.as_mut_ptr(), buffer.as_mut_ptr(), buffer.len());
        match self.general() {
            General::All { ask, .. } => unsafe {
                ask(
                    asked, limit, kind, k, graph, length, lists, classes, m, vans, twice_k,
                    values, room, most,
                )
            },
            #[cfg(earlier_lists = "classes")]
            General::Classes { ask, .. } => unsafe {
                ask(asked, limit, kind, k, graph, length, lists, classes, m, values, room, most)
            },
        }
    }

    #[rustfmt::skip]
    pub fn check(&self, question: Question, cover: &[u8], values: &mut [u64; 3]) -> u32 {
        let Question { kind, k, sheet, .. } = question;
        let (graph, length, lists) = (sheet.as_ptr(), sheet.len(), question.brought());
        let (filed, size, values) = (cover.as_ptr(), cover.len(), values.as_mut_ptr());
        if lists == 0 {
            return unsafe { (self.check)(kind, k, graph, length, filed, size, values) };
        }
        let [(classes, m), (vans, twice_k)] = [question.classes, question.vans].map(list);
        match self.general() {
            General::All { verify, .. } => unsafe {
                verify(
                    kind, k, graph, length, lists, classes, m, vans, twice_k, filed, size, values,
                )
            },
            #[cfg(earlier_lists = "classes")]
            General::Classes { verify, .. } => unsafe {
                verify(kind, k, graph, length, lists, classes, m, filed, size, values)
            },
        }
    }

    #[rustfmt::skip]
    pub fn walk(
        &self,
        question: Question,
        cover: &[u8],
        tree: usize,
        values: &mut [u64; 2],
        buffer: &mut [u8],
    ) -> u32 {
        let Question { kind, k, sheet, .. } = question;
        let (graph, length, lists) = (sheet.as_ptr(), sheet.len(), question.brought());
        let (filed, size, values) = (cover.as_ptr(), cover.len(), values.as_mut_ptr());
        let (room, most) = (buffer.as_mut_ptr(), buffer.len());
        if lists == 0 {
            let walk = self.walk;
            return unsafe { walk(kind, k, graph, length, filed, size, tree, values, room, most) };
        }
        let [(classes, m), (vans, twice_k)] = [question.classes, question.vans].map(list);
        match self.general() {
            General::All { route, .. } => unsafe {
                route(
                    kind, k, graph, length, lists, classes, m, vans, twice_k, filed, size, tree,
                    values, room, most,
                )
            },
            #[cfg(earlier_lists = "classes")]
            General::Classes { route, .. } => unsafe {
                route(
                    kind, k, graph, length, lists, classes, m, filed, size, tree, values, room,
                    most,
                )
            },
        }
    }
}

/// The pointer and the length of a list; that of none is to no bytes.
fn list(bytes: Option<&[u8]>) -> (Bytes, usize) {
    let bytes = bytes.unwrap_or_default();
    (bytes.as_ptr(), bytes.len())
}
