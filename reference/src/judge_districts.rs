//! Judging the replies in full that the program `districts` writes to its records of trials and of searches, one behind the
//! other in the order of the records. What is printed of a check says all, so no reply in full stands for it.

use crate::districts::{Asked, Record};
use crate::judge::{self, Reply};
use crate::replies::{answer_of, decode, full_of, Full, FILL};

/// This package's own reply in full; nothing for a check.
pub fn own_reply(record: &Record) -> Option<Full> {
    let mut buffer = vec![FILL; record.room()];
    let answer = record.answer(&mut buffer)?;
    Some(full_of(&answer, &buffer))
}

/// Judges the reply to a record; the error says what is wrong with it.
pub fn judge_reply(record: &Record, full: &Full) -> Result<(), String> {
    let answer = answer_of(full)?;
    if full.rest != 1 {
        return Err("the buffer was touched behind the bytes written".into());
    }
    let before = vec![FILL; record.room()];
    let mut after = before.clone();
    let room = after.get_mut(..full.front.len()).ok_or("more is written than fits the buffer")?;
    room.copy_from_slice(&full.front);
    let reply = Reply { answer: &answer, before: &before, after: &after };
    let (kind, brought, k) = (record.kind, record.brought(), record.k as u64);
    match record.asked {
        Asked::Trial { limit, .. } => judge::trial_with(kind, brought, k, limit, reply),
        Asked::Best { .. } => judge::best_with(kind, brought, k, reply),
        Asked::Within { trials, .. } => judge::within_with(kind, brought, k, trials, reply),
        Asked::Check { .. } => Err("a check has no reply in full".into()),
    }
}

/// Judges the replies to all records: how many they are, or what is wrong, from the first wrong reply on.
pub fn judge_all(records: &[Record], mut replies: &[u8]) -> Result<usize, Vec<String>> {
    let mut wrong = Vec::new();
    let is_check = |record: &Record| matches!(record.asked, Asked::Check { .. });
    let mut count = 0;
    for (number, record) in records.iter().enumerate().filter(|(_, record)| !is_check(record)) {
        let Some((full, rest)) = decode(replies) else {
            wrong.push(format!("the replies end within or before that to record {number}"));
            return Err(wrong);
        };
        replies = rest;
        count += 1;
        if let Err(why) = judge_reply(record, &full) {
            let Record { asked, kind, k, sheet, classes, vans } = record;
            let [classes, vans] = [classes, vans].map(|list| list.as_ref().map(Vec::len));
            let sizes = format!("{} sheet, {classes:?} class and {vans:?} van", sheet.len());
            let question = format!("{asked:?}, {kind:?}, k {k}, {sizes} bytes");
            wrong.push(format!("record {number} ({question}): {why}"));
        }
    }
    if !replies.is_empty() {
        wrong.push(format!("{} bytes follow the last reply", replies.len()));
    }
    if wrong.is_empty() {
        Ok(count)
    } else {
        Err(wrong)
    }
}
