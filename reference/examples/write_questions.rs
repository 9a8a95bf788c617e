//! Writes the bytes of questions in words to a folder, a file each, and prints what the program `rounds` of this package
//! replies to them: write_questions TEXT-FILE FOLDER.

use std::process::ExitCode;

use reference::rounds::rounds;
use reference::written::read;

fn main() -> std::io::Result<ExitCode> {
    let words: Vec<String> = std::env::args().skip(1).collect();
    let [text, folder] = &words[..] else {
        eprintln!("write_questions TEXT-FILE FOLDER");
        return Ok(ExitCode::from(2));
    };
    let questions = match read(&std::fs::read_to_string(text)?) {
        Ok(questions) => questions,
        Err(why) => {
            eprintln!("{why}");
            return Ok(ExitCode::FAILURE);
        }
    };
    for question in questions {
        std::fs::write(format!("{folder}/{}", question.file), &question.input)?;
        println!("{}", question.file);
        rounds(&question.input).lines().for_each(|row| println!("> {row}"));
    }
    Ok(ExitCode::SUCCESS)
}
