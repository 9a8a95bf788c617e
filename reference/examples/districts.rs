//! Prints the text of the records of `districts`; with a folder's name, writes the records and the text there instead; with
//! `judge` and a file's name, judges the replies in full that the program wrote to that file.

use std::process::ExitCode;

use reference::districts::{encode, text};
use reference::judge_districts::judge_all;
use reference::made_districts::records;

/// How many wrong replies are shown.
const SHOWN: usize = 10;

fn main() -> std::io::Result<ExitCode> {
    let words: Vec<String> = std::env::args().skip(1).collect();
    let records = records();
    match &words[..] {
        [] => print!("{}", text(&records)),
        [folder] => {
            std::fs::write(format!("{folder}/stdin"), encode(&records))?;
            std::fs::write(format!("{folder}/stdout"), text(&records))?;
        }
        [word, replies] if word == "judge" => match judge_all(&records, &std::fs::read(replies)?) {
            Ok(count) => println!("{count} replies judged"),
            Err(wrong) => {
                wrong.iter().take(SHOWN).for_each(|why| println!("{why}"));
                println!("{} wrong", wrong.len());
                return Ok(ExitCode::FAILURE);
            }
        },
        _ => {
            eprintln!("districts, districts FOLDER, or districts judge REPLIES-FILE");
            return Ok(ExitCode::from(2));
        }
    }
    Ok(ExitCode::SUCCESS)
}
