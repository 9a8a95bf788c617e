//! Replies in full: an answer, and what was written to the lent buffer, as bytes.
//!
//! Replies stand one behind the other; every field lowest byte first:
//!
//! ```text
//! case             2 bytes: 0 cover, 1 too low stop, 2 too low parts, 3 too low needs, 4 no cover, otherwise the refusal
//! count of values  2 bytes
//! values           8 bytes each: cover limit, heaviest, trees; stop vertex; parts and roots; needs count; otherwise none
//! length           4 bytes: how many bytes were written at the buffer's front, 0 where nothing is written
//! front            those bytes
//! rest             1 byte: 1 if the buffer is otherwise as it came, else 0
//! ```
//!
//! What is known besides the cover after a number of trials is not in it: the compared text says all of that. The buffer comes
//! filled with `FILL`.

use crate::bytes::{four, put_four, put_two, two};
use crate::cover::filed_length;
use crate::question::Answer;

/// What every byte of the lent buffer is before a question.
pub const FILL: u8 = 0xa5;

/// A reply as it was written, right or wrong.
#[derive(Clone, Debug, PartialEq, Eq)]
pub struct Full {
    pub case: usize,
    pub values: Vec<u64>,
    pub front: Vec<u8>,
    pub rest: u8,
}

/// A reply in full as bytes.
pub fn encode(full: &Full) -> Vec<u8> {
    let mut out = Vec::new();
    put_two(&mut out, full.case);
    put_two(&mut out, full.values.len());
    full.values.iter().for_each(|value| out.extend(value.to_le_bytes()));
    put_four(&mut out, full.front.len() as u64);
    out.extend_from_slice(&full.front);
    out.push(full.rest);
    out
}

/// Reads the reply at the front of bytes, and gives the bytes behind it.
pub fn decode(bytes: &[u8]) -> Option<(Full, &[u8])> {
    let (head, bytes) = bytes.split_at_checked(4)?;
    let (values, bytes) = bytes.split_at_checked(8 * two(head, 2))?;
    let (length, bytes) = bytes.split_at_checked(4)?;
    let (front, bytes) = bytes.split_at_checked(four(length, 0) as usize)?;
    let (&rest, bytes) = bytes.split_first()?;
    let value = |field: &[u8]| four(field, 0) + (four(field, 4) << 32);
    let values = values.chunks(8).map(value).collect();
    Some((Full { case: two(head, 0), values, front: front.to_vec(), rest }, bytes))
}

/// An answer with the buffer it left, in full.
pub fn full_of(answer: &Answer, buffer: &[u8]) -> Full {
    let written = matches!(answer, Answer::Cover { .. } | Answer::Parts { .. });
    let announced =
        if written { filed_length(buffer).expect("a buffer has four bytes") } else { 0 };
    let front = buffer[..announced].to_vec();
    let rest = u8::from(buffer[front.len()..].iter().all(|&byte| byte == FILL));
    let (case, values) = match *answer {
        Answer::Cover { limit, heaviest } => (0, vec![limit, heaviest, two(&front, 0) as u64]),
        Answer::Stop(vertex) => (1, vec![vertex as u64]),
        Answer::Parts { parts, roots } => (2, vec![parts as u64, roots as u64]),
        Answer::Needs(count) => (3, vec![count]),
        Answer::NoCover => (4, vec![]),
        Answer::Refused(number) => (usize::from(number), vec![]),
    };
    Full { case, values, front, rest }
}

/// The answer of a reply, whose values and bytes written must be as many as its case asks for.
pub fn answer_of(full: &Full) -> Result<Answer, String> {
    let small = |value: u64| usize::try_from(value).map_err(|_| "too large a number".to_string());
    let (answer, trees) = match (full.case, &full.values[..]) {
        (0, &[limit, heaviest, t]) => (Answer::Cover { limit, heaviest }, Some(t)),
        (1, &[vertex]) => (Answer::Stop(small(vertex)?), None),
        (2, &[t, roots]) => (Answer::Parts { parts: small(t)?, roots: small(roots)? }, Some(t)),
        (3, &[count]) => (Answer::Needs(count), None),
        (4, &[]) => (Answer::NoCover, None),
        (number @ 5.., &[]) => (Answer::Refused(number as u16), None),
        (case, values) => return Err(format!("{} values of case {case}", values.len())),
    };
    let announced = filed_length(&full.front);
    match trees {
        None if full.front.is_empty() => Ok(answer),
        Some(_) if announced != Some(full.front.len()) => {
            Err(format!("{} bytes are written, {announced:?} announced", full.front.len()))
        }
        Some(t) if t == two(&full.front, 0) as u64 => Ok(answer),
        Some(t) => Err(format!("{t} trees are named, {} written", two(&full.front, 0))),
        None => Err(format!("{} bytes are written to {answer:?}", full.front.len())),
    }
}
