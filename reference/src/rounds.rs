//! The program `rounds` as a function from its input bytes to its output text.

use crate::best::best;
use crate::bytes::{four, two};
use crate::cover::{decode, filed_length, gather, Tree};
use crate::graph::{read, Graph};
use crate::question::{Answer, Kind, BUFFER};
use crate::trial::trial;

/// A question as the program reads it; the limit is absent in a best-limit question.
#[derive(Clone, Copy, Debug, PartialEq, Eq)]
pub struct Question<'a> {
    pub kind: Kind,
    pub k: u64,
    pub limit: Option<u64>,
    pub sheet: &'a [u8],
}

/// Reads the program's input, or refuses it with 41.
pub fn question(input: &[u8]) -> Result<Question<'_>, u16> {
    if input.len() < 8 || input.len() > 16_396 {
        return Err(41);
    }
    let limit = four(input, 4);
    let (kind, limit) = match two(input, 0) {
        1 => (Kind::Rooted, Some(limit)),
        2 => (Kind::Unrooted, Some(limit)),
        3 => (Kind::Rooted, None),
        4 => (Kind::Unrooted, None),
        _ => return Err(41),
    };
    Ok(Question { kind, k: two(input, 2) as u64, limit, sheet: &input[8..] })
}

/// The output text for the program's input.
pub fn rounds(input: &[u8]) -> String {
    let question = match question(input) {
        Ok(question) => question,
        Err(number) => return text(&Answer::Refused(number), None),
    };
    let Question { kind, k, sheet, .. } = question;
    let mut buffer = vec![0; BUFFER];
    let answer = match question.limit {
        Some(limit) => trial(kind, sheet, k, limit, &mut buffer),
        None => best(kind, sheet, k, &mut buffer),
    };
    let Answer::Cover { .. } = answer else {
        return text(&answer, None);
    };
    let length = filed_length(&buffer).expect("a buffer has four bytes");
    let filed = decode(&buffer[..length]).expect("an accepted cover was written");
    let graph = read(sheet).expect("an accepted sheet can be read");
    text(&answer, Some((&graph, &gather(&filed))))
}

/// The text of an answer; the trees of a cover are given with their graph.
pub fn text(answer: &Answer, cover: Option<(&Graph, &[Tree])>) -> String {
    match answer {
        Answer::Cover { limit, heaviest } => {
            let (graph, trees) = cover.expect("a cover is printed with its trees");
            let head = format!("cover {limit} {heaviest} {}\n", trees.len());
            trees.iter().fold(head, |text, tree| text + &tree_line(graph, tree))
        }
        Answer::Stop(vertex) => format!("too low stop {vertex}\n"),
        Answer::Parts { parts, roots } => format!("too low parts {parts} yards {roots}\n"),
        Answer::Needs(count) => format!("too low needs {count}\n"),
        Answer::NoCover => "no cover\n".to_string(),
        Answer::Refused(number) => format!("refused {number}\n"),
    }
}

/// The printed row of one tree: its start, its weight and its edges.
fn tree_line(graph: &Graph, tree: &Tree) -> String {
    let head = format!("tree {} {}", tree.start, graph.weight(&tree.edges));
    let edges = tree.edges.iter().map(|e| format!(" {e}"));
    head + &edges.collect::<String>() + "\n"
}
