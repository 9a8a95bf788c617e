//! The reply to a question with a number of trials, held to `reference/`.

use super::call::Got;
use reference::brought::Brought;
use reference::bytes::two;
use reference::judge::{self, Reply};
use reference::question::{Answer, Kind};
use reference::within::best_within_with;

/// Whether what came of a question with a number of trials p is what the reference allows: the cover by any of the free
/// choices, all the other values exactly.
pub fn right(kind: Kind, brought: Brought, k: u64, p: u64, got: &Got) -> Result<(), String> {
    let (before, values) = (&got.values.0, &got.values.1);
    let (answer, count) = match got.case {
        0 | 5 => (Answer::Cover { limit: values[0], heaviest: values[1] }, 6),
        4 => (Answer::NoCover, 0),
        number => (Answer::Refused(u16::try_from(number).unwrap_or(u16::MAX)), 0),
    };
    let reply = Reply { answer: &answer, before: &got.buffer.0, after: &got.buffer.1 };
    judge::within_with(kind, brought, k, p, reply)?;
    let mut due = before.clone();
    if count == 6 {
        let (_, known) = best_within_with(kind, brought, k, p, &mut got.buffer.0.clone()).parted();
        if got.case != if known.spent { 5 } else { 0 } {
            return Err(format!("{} is said, which is wrong of {known:?}", got.case));
        }
        due[..2].copy_from_slice(&values[..2]);
        due[2] = two(&got.buffer.1, 0) as u64;
        due[3..].copy_from_slice(&[known.trials, known.floor, known.spent.into()]);
    }
    if *values != due {
        return Err(format!("the values are due as {due:?}, not {values:?}"));
    }
    Ok(())
}
