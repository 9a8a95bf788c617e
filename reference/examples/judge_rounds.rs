//! Judges another program `rounds` by its answers to the questions in words of a file, and to so many made questions:
//! judge_rounds PROGRAM QUESTIONS-FILE COUNT.

use std::io::{Error, Result};
use std::path::Path;
use std::process::ExitCode;

use reference::judge_rounds::{judge_rounds, judge_written, run_program, Judged};
use reference::written::read;

/// How many wrong answers are shown.
const SHOWN: usize = 5;

fn main() -> Result<ExitCode> {
    let args: Vec<String> = std::env::args().skip(1).collect();
    let ([program, questions, _], Some(Ok(count))) = (&args[..], args.get(2).map(|n| n.parse()))
    else {
        eprintln!("judge_rounds PROGRAM QUESTIONS-FILE COUNT");
        return Ok(ExitCode::from(2));
    };
    let program = |input: &[u8]| run_program(Path::new(program), input);
    let questions = read(&std::fs::read_to_string(questions)?).map_err(Error::other)?;
    let all = [
        ("questions in words", judge_written(&questions, program)),
        ("made questions", judge_rounds(count, program)),
    ];
    all.iter().for_each(|(name, said)| show(name, said));
    let passed = all.iter().all(|(_, said)| said.is_passed());
    Ok(if passed { ExitCode::SUCCESS } else { ExitCode::FAILURE })
}

/// Prints what was said, and the first wrong answers.
fn show(name: &str, said: &Judged) {
    said.wrong.iter().take(SHOWN).for_each(|why| println!("{why}"));
    let Judged { undecided, wrong, .. } = said;
    println!("{} {name} judged, {} wrong, {undecided} undecided", said.judged(), wrong.len());
}
