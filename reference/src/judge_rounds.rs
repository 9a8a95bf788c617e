//! Judging another program `rounds` by its answers to made questions, and to questions in words with the reply that is due.

use std::io::{Error, ErrorKind, Result, Write};
use std::path::Path;
use std::process::{Command, Stdio};

use crate::bytes::{four, two};
use crate::judge_text::{judge, Verdict};
use crate::made_questions::inputs;
use crate::written::Written;

/// What was said of the answers of a program.
#[derive(Clone, Debug, Default, PartialEq, Eq)]
pub struct Judged {
    /// How many answers are right.
    pub right: usize,
    /// How many answers show too little to be judged.
    pub undecided: usize,
    /// What is wrong, with the question that it is wrong for.
    pub wrong: Vec<String>,
}

impl Judged {
    /// How many answers were judged, right or wrong.
    pub fn judged(&self) -> usize {
        self.right + self.wrong.len()
    }

    /// Whether some answers are right, none is wrong, and at most one of a hundred shows too little to be judged.
    pub fn is_passed(&self) -> bool {
        self.right > 0 && self.wrong.is_empty() && 100 * self.undecided <= self.judged()
    }
}

/// The text that a program prints for an input; an error if it does not end well.
pub fn run_program(program: &Path, input: &[u8]) -> Result<String> {
    let mut child = Command::new(program).stdin(Stdio::piped()).stdout(Stdio::piped()).spawn()?;
    let mut pipe = child.stdin.take().ok_or(ErrorKind::BrokenPipe)?;
    match pipe.write_all(input) {
        Err(error) if error.kind() != ErrorKind::BrokenPipe => return Err(error),
        _ => drop(pipe),
    }
    let output = child.wait_with_output()?;
    if !output.status.success() {
        return Err(Error::other(format!("the program ended with {}", output.status)));
    }
    String::from_utf8(output.stdout).map_err(Error::other)
}

/// Puts whole rounds of made questions to a program until so many answers are judged, or a round has wrong ones.
pub fn judge_rounds(least: usize, program: impl Fn(&[u8]) -> Result<String>) -> Judged {
    let mut said = Judged::default();
    for round in 0.. {
        for (place, input) in inputs(round).iter().enumerate() {
            match judge_one(input, program(input)) {
                Verdict::Yes => said.right += 1,
                Verdict::Undecided(_) => said.undecided += 1,
                Verdict::No(why) => {
                    let asked = format!("round {round}, input {place}: {}", shown(input));
                    said.wrong.push(format!("{asked}\n{why}"));
                }
            }
        }
        if said.judged() >= least || !said.wrong.is_empty() {
            break;
        }
    }
    said
}

/// Puts questions in words to a program: each is due the reply beside it, byte by byte.
pub fn judge_written(questions: &[Written], program: impl Fn(&[u8]) -> Result<String>) -> Judged {
    let mut said = Judged::default();
    for Written { file, input, reply } in questions {
        match program(input) {
            Ok(output) if output == *reply => said.right += 1,
            Ok(output) => said.wrong.push(format!("{file}: {reply:?} is due, not {output:?}")),
            Err(error) => said.wrong.push(format!("{file}: {error}")),
        }
    }
    said
}

/// Judges what a program printed for an input, or that it failed.
fn judge_one(input: &[u8], output: Result<String>) -> Verdict {
    let output = match output {
        Ok(output) => output,
        Err(error) => return Verdict::No(error.to_string()),
    };
    match judge(input, &output) {
        Verdict::No(why) => {
            let start: String = output.chars().take(300).collect();
            Verdict::No(format!("printed: {start}\n{why}"))
        }
        other => other,
    }
}

/// The numbers at an input's front, its length, and all its bytes if they are few.
fn shown(input: &[u8]) -> String {
    let mut out = format!("{} bytes", input.len());
    if input.len() >= 8 {
        let (question, k, limit) = (two(input, 0), two(input, 2), four(input, 4));
        out += &format!(", question {question}, k {k}, limit {limit}");
    }
    if input.len() <= 200 {
        out += ", bytes";
        input.iter().for_each(|byte| out += &format!(" {byte:02x}"));
    }
    out
}
