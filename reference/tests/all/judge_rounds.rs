//! Judging a program by its answers to made questions: right programs pass, wrong ones do not.

use std::io::Result;
use std::path::Path;

use crate::common::other::other_rounds;
use crate::common::{input, sheet_n};
use reference::best::search;
use reference::bytes::{put_two, two};
use reference::graph::{read, Graph};
use reference::judge_rounds::{judge_rounds, run_program, Judged};
use reference::made_questions::inputs;
use reference::question::Kind;
use reference::rounds::{question, rounds, Question};
use reference::trial::{run, Outcome};

/// The program `rounds` of this package.
fn own_program() -> &'static Path {
    Path::new(env!("CARGO_BIN_EXE_reference"))
}

#[test]
fn our_own_program_passes() {
    let said = judge_rounds(1, |input| run_program(own_program(), input));
    assert_eq!(said.wrong, Vec::<String>::new());
    assert!(said.judged() > 250 && said.undecided == 0, "{} judged", said.judged());
    assert!(said.is_passed());
}

#[test]
fn few_answers_may_show_too_little() {
    // Right ones, undecided ones, wrong ones, and whether the program passes.
    let rows = [
        (2_000, 0, 0, true),
        (2_000, 20, 0, true),
        (2_000, 21, 0, false),
        (2_000, 0, 1, false),
        (0, 0, 0, false),
        (0, 2_000, 0, false),
    ];
    for (right, undecided, wrong, due) in rows {
        let said = Judged { right, undecided, wrong: vec![String::new(); wrong] };
        assert_eq!(said.is_passed(), due, "{right} right, {undecided} undecided, {wrong} wrong");
    }
}

#[test]
fn a_program_with_other_choices_passes() {
    let said = judge_rounds(2_000, |input| Ok(other_rounds(input)));
    assert_eq!(said.wrong, Vec::<String>::new());
    assert!(said.judged() >= 2_000 && said.is_passed(), "{} undecided", said.undecided);
    let differ = |input: &&Vec<u8>| other_rounds(input) != rounds(input);
    let rounds: Vec<Vec<u8>> = (0..3).flat_map(inputs).collect();
    assert!(rounds.iter().filter(differ).count() > 50);
}

/// The input with another question, k or limit.
fn asked(input: &[u8], change: impl Fn(&mut Vec<u8>)) -> String {
    let mut other = input.to_vec();
    if input.len() >= 8 {
        change(&mut other);
    }
    rounds(&other)
}

/// The text with the number at a place of its first row made one larger.
fn larger(text: &str, word: &str, place: usize) -> String {
    let mut words: Vec<String> = text.split(' ').map(String::from).collect();
    if text.starts_with(word) {
        let number = words[place].trim_end().parse::<u64>().expect("a number") + 1;
        let ends_row = words[place].contains('\n');
        words[place] = format!("{number}{}", if ends_row { "\n" } else { "" });
    }
    words.join(" ")
}

#[test]
fn wrong_programs_do_not_pass() {
    type Program = fn(&[u8]) -> String;
    let rows: [(&str, Program); 14] = [
        ("prints nothing", |_| String::new()),
        ("ends no row", |input| rounds(input).trim_end().to_string()),
        ("says too low with another word", |input| rounds(input).replace("yards", "roots")),
        ("names another heaviest", |input| larger(&rounds(input), "cover", 2)),
        ("names another limit", |input| larger(&rounds(input), "cover", 1)),
        ("names another stop", |input| larger(&rounds(input), "too low stop", 3)),
        ("needs one more", |input| larger(&rounds(input), "too low needs", 3)),
        ("shows one part more", |input| larger(&rounds(input), "too low parts", 3)),
        ("shows one root more", |input| larger(&rounds(input), "too low parts", 5)),
        ("reads the limit of a best-limit question", |input| {
            asked(input, |other| other[0] -= if matches!(other[0], 3 | 4) { 2 } else { 0 })
        }),
        ("reads one byte of the question", |input| asked(input, |other| other[1] = 0)),
        ("plans for one tree more", |input| {
            asked(input, |other| {
                let mut k = Vec::new();
                put_two(&mut k, (two(other, 2) + 1) % 65_536);
                other[2..4].copy_from_slice(&k);
            })
        }),
        ("reads no more than is allowed", |input| rounds(&input[..input.len().min(16_396)])),
        ("takes a short input as an empty graph", |input| {
            if input.len() < 8 {
                "refused 11\n".to_string()
            } else {
                rounds(input)
            }
        }),
    ];
    for (name, program) in rows {
        let said = judge_rounds(1, |input| Ok(program(input)));
        assert!(!said.wrong.is_empty(), "{name}: {} right", said.right);
    }
}

#[test]
fn programs_that_misread_weight_0_do_not_pass() {
    type Program = fn(&[u8]) -> String;
    let rows: [(&str, Program); 2] = [
        ("refuses weight 0", |input| match question(input).map(|asked| read(asked.sheet)) {
            Ok(Ok(graph)) if graph.edges.iter().any(|edge| edge.weight == 0) => {
                "refused 16\n".to_string()
            }
            _ => rounds(input),
        }),
        ("takes limit 0 for 1", |input| match question(input) {
            Ok(Question { limit: Some(0), .. }) => {
                asked(input, |other| other[4] = 1).replacen("cover 1 ", "cover 0 ", 1)
            }
            _ => rounds(input),
        }),
    ];
    for (name, program) in rows {
        let said = judge_rounds(1, |input| Ok(program(input)));
        assert!(said.wrong.len() > 3, "{name}: {} right, {} wrong", said.right, said.wrong.len());
    }
}

/// The rows of a text, each as its words.
type Rows = Vec<Vec<String>>;

/// What a program prints that changes the rows of every cover it should print.
fn changed_cover(input: &[u8], change: impl Fn(&mut Rows)) -> String {
    let text = rounds(input);
    if !text.starts_with("cover") {
        return text;
    }
    let words = |row: &str| row.split(' ').map(String::from).collect();
    let mut rows: Rows = text.lines().map(words).collect();
    change(&mut rows);
    rows.iter().map(|row| row.join(" ") + "\n").collect()
}

/// A search of one's own: the limit where it ends, for a graph that has a cover.
type Search = fn(Kind, &Graph, usize) -> u64;

/// The answer to a best-limit question by a trial where another search ends; other answers as they are.
fn searched(input: &[u8], other: Search) -> String {
    let text = rounds(input);
    let Ok(asked) = question(input) else { return text };
    if asked.limit.is_some() || !text.starts_with("cover") {
        return text;
    }
    let graph = read(asked.sheet).expect("an answered sheet");
    let k = asked.k as usize;
    let number = if asked.kind == Kind::Rooted { 1 } else { 2 };
    rounds(&crate::common::input(number, k, other(asked.kind, &graph, k), asked.sheet))
}

/// The search, with another middle between two limits.
fn halved(kind: Kind, graph: &Graph, k: usize, middle: fn(u64, u64) -> u64) -> u64 {
    let accepted = |limit| matches!(run(kind, graph, k, limit), Outcome::Cover(_));
    let (mut low, mut high) = (0, graph.total());
    if accepted(0) {
        return 0;
    }
    while high - low > 1 {
        let tried = middle(low, high);
        if accepted(tried) {
            high = tried;
        } else {
            low = tried;
        }
    }
    high
}

#[test]
fn other_searches_do_not_pass() {
    let rows: [(&str, Search); 4] = [
        ("tries only the sum of weights", |_, graph, _| graph.total()),
        ("ends one too high", |kind, graph, k| search(kind, graph, k).expect("a cover").0 + 1),
        ("rounds up", |kind, graph, k| {
            halved(kind, graph, k, |low, high| (low + high).div_ceil(2))
        }),
        ("tries every limit from 0 on", |kind, graph, k| halved(kind, graph, k, |low, _| low + 1)),
    ];
    for (name, other) in rows {
        // A graph of few edges shows as much, and every limit of it can be tried.
        let program = |input: &[u8]| match input.len() {
            ..130 if !input.is_empty() && question(input).is_ok_and(|q| sum_of(q.sheet) < 100) => {
                searched(input, other)
            }
            _ => rounds(input),
        };
        let said = judge_rounds(1, |input| Ok(program(input)));
        assert!(!said.wrong.is_empty(), "{name}: {} right", said.right);
    }
}

/// The sum of a sheet's weights, 0 for one that is refused.
fn sum_of(sheet: &[u8]) -> u64 {
    read(sheet).map_or(0, |graph| graph.total())
}

#[test]
fn programs_that_plan_wrongly_do_not_pass() {
    type Program = fn(&[u8]) -> String;
    let rows: [(&str, Program); 8] = [
        ("leaves a tree's last edge out", |input| {
            changed_cover(input, |rows| {
                if let Some(row) = rows.iter_mut().skip(1).find(|row| row.len() > 3) {
                    row.pop();
                }
            })
        }),
        ("puts one edge more", |input| {
            changed_cover(input, |rows| rows.last_mut().unwrap().push("0".into()))
        }),
        ("leaves the last tree out", |input| changed_cover(input, |rows| drop(rows.pop()))),
        ("prints the trees in another order", |input| {
            changed_cover(input, |rows| rows[1..].reverse())
        }),
        ("prints a tree's edges in another order", |input| {
            changed_cover(input, |rows| rows[1..].iter_mut().for_each(|row| row[3..].reverse()))
        }),
        ("starts a tree elsewhere", |input| {
            changed_cover(input, |rows| {
                rows[1][1] = if rows[1][1] == "0" { "1" } else { "0" }.into()
            })
        }),
        ("says too low to every trial", |input| match rounds(input) {
            text if text.starts_with("cover") => "too low needs 9\n".into(),
            text => text,
        }),
        ("says no cover without looking", |input| match rounds(input) {
            text if text.starts_with("cover") => "no cover\n".into(),
            text => text,
        }),
    ];
    for (name, program) in rows {
        let said = judge_rounds(1, |input| Ok(program(input)));
        assert!(said.wrong.len() > 10, "{name}: {} right, {} wrong", said.right, said.wrong.len());
    }
}

#[test]
fn a_program_that_fails_does_not_pass() {
    let none = |input: &[u8]| run_program(Path::new("/no/such/program"), input);
    let said = judge_rounds(1, none);
    assert!(said.right == 0 && said.wrong.len() > 250, "{} wrong", said.wrong.len());
    let sometimes = |input: &[u8]| -> Result<String> {
        if input.len() > 16_396 {
            return Err(std::io::Error::other("stopped"));
        }
        Ok(rounds(input))
    };
    let said = judge_rounds(1, sometimes);
    assert!(said.right > 250 && said.wrong.len() > 5);
    assert!(said.wrong.iter().all(|why| why.contains("stopped")), "{:?}", said.wrong);
}

#[test]
fn a_program_is_fed_and_read() {
    let whole = input(1, 2, 4, &sheet_n());
    let due = "cover 4 6 2\ntree 0 6 0 1\ntree 1 0\n";
    assert_eq!(run_program(own_program(), &whole).expect("it runs"), due);
    assert_eq!(run_program(own_program(), &[]).expect("it runs"), "refused 41\n");
    assert_eq!(run_program(own_program(), &vec![1; 200_000]).expect("it runs"), "refused 41\n");
    assert!(run_program(Path::new("/no/such/program"), &whole).is_err());
}
