//! The quick version's answers held to `reference/`: the same case and values, and every byte where the rules fix it; where they
//! leave a choice, the reference's judge says whether it is an allowed one.

use bench::best::best;
use bench::check::check;
use bench::question::{Question, ROOTED, UNROOTED};
use bench::trial::trial;
use reference::brought::Brought;
use reference::check::check_with;
use reference::judge::{self, Reply};
use reference::question::{Answer, Kind};

/// What stands in the values and the buffer before a question.
pub const VALUE: u64 = 0x1111_2222_3333_4444;
pub const FILL: u8 = 0xa5;

/// The question of a kind for k trees on what is brought.
pub fn question(kind: Kind, k: usize, brought: Brought) -> Question {
    let number = if kind == Kind::Rooted { ROOTED } else { UNROOTED };
    let Brought { sheet, classes, vans } = brought;
    Question { kind: number, k, sheet, classes, vans }
}

/// A question's number, values and buffer.
type Got = (u32, [u64; 3], Vec<u8>);

fn asked(room: usize, question: impl Fn(&mut [u64; 3], &mut [u8]) -> u32) -> Got {
    let (mut values, mut buffer) = ([VALUE; 3], vec![FILL; room]);
    let case = question(&mut values, &mut buffer);
    (case, values, buffer)
}

/// The answer of a case; values past those of the case are as they came.
fn answer(case: u32, values: [u64; 3], buffer: &[u8]) -> Result<Answer, String> {
    let [a, b, c] = values;
    let (answer, used) = match case {
        0 => (Answer::Cover { limit: a, heaviest: b }, 3),
        1 => (Answer::Stop(a as usize), 1),
        2 => (Answer::Parts { parts: a as usize, roots: b as usize }, 2),
        3 => (Answer::Needs(a), 1),
        4 => (Answer::NoCover, 0),
        _ => (Answer::Refused(case as u16), 0),
    };
    if values[used..].iter().any(|&value| value != VALUE) {
        return Err("a value past those of the case was written".into());
    }
    if case == 0 && c != u64::from(buffer[0]) {
        return Err(format!("{c} trees are named, {} written", buffer[0]));
    }
    Ok(answer)
}

/// Judges a trial, or with no limit the best limit.
pub fn judged_with(
    kind: Kind,
    k: usize,
    limit: Option<u64>,
    brought: Brought,
    room: usize,
) -> Result<u32, String> {
    let question = question(kind, k, brought);
    let (case, values, buffer) = asked(room, |values, buffer| match limit {
        Some(limit) => trial(question, limit, values, buffer),
        None => best(question, values, buffer),
    });
    let answer = answer(case, values, &buffer)?;
    let reply = Reply { answer: &answer, before: &vec![FILL; room], after: &buffer };
    match limit {
        Some(limit) => judge::trial_with(kind, brought, k as u64, limit, reply)?,
        None => judge::best_with(kind, brought, k as u64, reply)?,
    }
    Ok(case)
}

/// Checks cover bytes, which must be answered as by the reference; gives the number.
pub fn checked(kind: Kind, k: usize, brought: Brought, cover: &[u8]) -> Result<u32, String> {
    let mut values = [VALUE; 3];
    let said = check(question(kind, k, brought), cover, &mut values);
    let (number, first) = match check_with(kind, brought, k as u64, cover) {
        Ok(heaviest) => (0, heaviest),
        Err(number) => (u32::from(number), VALUE),
    };
    if (said, values) != (number, [first, VALUE, VALUE]) {
        return Err(format!("{number} {first} is due, not {said} {values:?}"));
    }
    Ok(said)
}
