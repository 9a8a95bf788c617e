//! Questions in words: how they are read, and those of the folder `examples` with their bytes and replies.

use std::path::PathBuf;

use reference::bytes::two;
use reference::fixed::is_fixed;
use reference::graph::{read as read_graph, sheet};
use reference::judge_rounds::judge_written;
use reference::made_questions::input;
use reference::rounds::{question, rounds};
use reference::written::{read, Written};

fn folder() -> PathBuf {
    PathBuf::from(env!("CARGO_MANIFEST_DIR")).join("../examples")
}

/// The questions of the folder.
fn kept() -> Vec<Written> {
    let text = std::fs::read_to_string(folder().join("questions.txt")).expect("questions.txt");
    read(&text).expect("questions in words")
}

#[test]
fn words_are_read() {
    let text = "# words\nsheet one 3\n\nline 0 2 7 # a line\nline 5 1 0\nquestion a 3 2 9 one\n> x y\n> z\nquestion b 1 2 4294967295 one\n";
    let bytes = sheet(3, &[(0, 2, 7), (5, 1, 0)]);
    let due = |file: &str, input: Vec<u8>, reply: &str| Written {
        file: file.into(),
        input,
        reply: reply.into(),
    };
    let all = vec![
        due("a", input(3, 2, 9, &bytes), "x y\nz\n"),
        due("b", input(1, 2, u32::MAX.into(), &bytes), ""),
    ];
    assert_eq!(read(text), Ok(all));
    for wrong in
        ["line 0 1 2", "> x", "question a 1 1 1 one", "sheet one", "sheet one 65536", "word"]
    {
        assert_eq!(read(wrong), Err(format!("row 1: {wrong}")));
    }
}

#[test]
fn the_files_kept_are_the_questions_in_words() {
    for written in kept() {
        let bytes = std::fs::read(folder().join(&written.file)).expect("a file for each question");
        assert!(bytes == written.input, "{}", written.file);
        assert_eq!(rounds(&bytes), written.reply, "{}", written.file);
    }
}

#[test]
fn a_program_is_held_to_the_replies() {
    let said = judge_written(&kept(), |input| Ok(rounds(input)));
    assert!(said.is_passed() && said.right == kept().len(), "{:?}", said.wrong);
    let said = judge_written(&kept(), |input| Ok(rounds(input).replace("yards", "roots")));
    assert!(!said.is_passed() && said.wrong.len() == 1, "{:?}", said.wrong);
    let said = judge_written(&kept(), |_| Err(std::io::Error::other("stopped")));
    assert!(!said.is_passed() && said.right == 0);
    assert!(!judge_written(&[], |input| Ok(rounds(input))).is_passed());
}

#[test]
fn the_first_question_is_that_of_the_readme() {
    let readme = std::fs::read_to_string(folder().join("../README.md")).expect("README.md");
    let first = &kept()[0];
    let rows = first.reply.lines().map(|row| format!("      {row}\n")).collect::<String>();
    assert!(readme.contains(&format!("target/bin/rounds < examples/{}", first.file)));
    assert!(readme.contains(&format!("\n\n{rows}\n")), "{rows}");
}

#[test]
fn the_replies_leave_no_choice() {
    for written in kept() {
        let asked = question(&written.input).expect("a question");
        let Ok(graph) = read_graph(asked.sheet) else { continue };
        let words: Vec<&str> = written.reply.split_whitespace().collect();
        let limit = asked.limit.unwrap_or_else(|| words[1].parse().expect("a limit"));
        assert!(is_fixed(asked.kind, &graph, asked.k as usize, limit), "{}", written.file);
    }
}

#[test]
fn every_kind_of_reply_is_kept() {
    let replies: Vec<(usize, String)> =
        kept().into_iter().map(|written| (two(&written.input, 0), written.reply)).collect();
    for (number, opening) in [
        (3, "cover "),
        (4, "cover "),
        (1, "too low stop "),
        (1, "too low parts "),
        (2, "too low needs "),
        (3, "refused "),
    ] {
        let met = replies.iter().any(|row| row.0 == number && row.1.starts_with(opening));
        assert!(met, "question {number}: no {opening}");
    }
}
