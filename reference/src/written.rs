//! Questions written in words, as `examples/questions.txt` of the repository has them: read, and turned into the bytes of
//! the program `rounds`.
//!
//! ```text
//! sheet NAME STOPS                      a sheet, then its lines:
//! line END END WEIGHT                   numbered from 0
//! question FILE NUMBER K LIMIT SHEET    a question on a sheet above
//! > TEXT                                a row of the reply that is due
//! ```
//!
//! What follows `#` is left out, and so are empty rows.

use crate::graph::sheet;
use crate::made_questions::input;

/// A question in words: the file of its bytes, those bytes, and the reply that is due.
#[derive(Clone, Debug, PartialEq, Eq)]
pub struct Written {
    pub file: String,
    pub input: Vec<u8>,
    pub reply: String,
}

/// A sheet in words: its name, its vertices and its edges (end, end, weight), right or wrong.
type Sheet = (String, usize, Vec<(usize, usize, u64)>);

/// Reads questions, or says which row is wrong.
pub fn read(text: &str) -> Result<Vec<Written>, String> {
    let mut sheets: Vec<Sheet> = Vec::new();
    let mut all: Vec<Written> = Vec::new();
    for (number, row) in text.lines().enumerate() {
        let fail = || format!("row {}: {row}", number + 1);
        if let Some(reply) = row.strip_prefix("> ") {
            let last = all.last_mut().ok_or_else(fail)?;
            last.reply += reply;
            last.reply.push('\n');
            continue;
        }
        let words: Vec<&str> = row.split('#').next().unwrap_or("").split_whitespace().collect();
        take(&words, &mut sheets, &mut all).ok_or_else(fail)?;
    }
    Ok(all)
}

/// Takes one row in; nothing if it is none of the above.
fn take(words: &[&str], sheets: &mut Vec<Sheet>, all: &mut Vec<Written>) -> Option<()> {
    let small = |word: &str| word.parse::<u16>().ok().map(usize::from);
    let large = |word: &str| word.parse::<u32>().ok().map(u64::from);
    match *words {
        [] => {}
        ["sheet", name, stops] => sheets.push((name.to_string(), small(stops)?, Vec::new())),
        ["line", a, b, weight] => {
            sheets.last_mut()?.2.push((small(a)?, small(b)?, large(weight)?));
        }
        ["question", file, number, k, limit, name] => {
            let (_, n, edges) = sheets.iter().find(|sheet| sheet.0 == name)?;
            let input = input(small(number)?, small(k)?, large(limit)?, &sheet(*n, edges));
            all.push(Written { file: file.to_string(), input, reply: String::new() });
        }
        _ => return None,
    }
    Some(())
}
