//! Judging the output text of another program `rounds`.

use crate::brought::Brought;
use crate::cover::{encode, Tree};
use crate::graph::{read, Graph};
use crate::judge::{self, Reply};
use crate::judge_parts::some_set_has;
use crate::question::{Answer, Kind, BUFFER};
use crate::rooted::plan;
use crate::rounds::{question, rounds, text, Question};
use crate::trial::admit;

/// What can be said of an output text.
#[derive(Clone, Debug, PartialEq, Eq)]
pub enum Verdict {
    Yes,
    No(String),
    /// The text shows too little to decide within the search allowed.
    Undecided(String),
}

/// Judges the output text to an input.
pub fn judge(input: &[u8], output: &str) -> Verdict {
    if output == rounds(input) {
        return Verdict::Yes;
    }
    let verdict = match question(input) {
        Ok(question) if output.starts_with("cover ") => judge_cover(&question, output),
        Ok(question) if output.starts_with("too low parts ") => judge_parts(&question, output),
        _ => Err(String::new()),
    };
    match verdict {
        Ok(true) => Verdict::Yes,
        Ok(false) => Verdict::Undecided("too many sets of parts".into()),
        Err(why) => Verdict::No(format!("due for one: {}{why}", rounds(input))),
    }
}

/// Judges a printed cover by its bytes.
fn judge_cover(question: &Question, output: &str) -> Result<bool, String> {
    let graph = read(question.sheet).map_err(|number| format!("refused {number}"))?;
    let (answer, trees) = parse_cover(&graph, output).ok_or("no cover text")?;
    if text(&answer, Some((&graph, &trees))) != output {
        return Err("not the exact text of this cover".into());
    }
    let before = vec![0; BUFFER];
    let mut after = before.clone();
    let bytes = encode(&trees);
    let room = after.get_mut(..bytes.len()).ok_or("too long a cover")?;
    room.copy_from_slice(&bytes);
    let reply = Reply { answer: &answer, before: &before, after: &after };
    let Question { kind, k, sheet, .. } = *question;
    match question.limit {
        Some(limit) => judge::trial(kind, sheet, k, limit, reply)?,
        None => judge::best(kind, sheet, k, reply)?,
    }
    Ok(true)
}

/// Reads the numbers of a printed cover, whose vertices and edges must exist.
fn parse_cover(graph: &Graph, output: &str) -> Option<(Answer, Vec<Tree>)> {
    let mut rows = output.lines();
    let head = numbers(rows.next()?.strip_prefix("cover ")?)?;
    let [limit, heaviest, _] = head[..] else {
        return None;
    };
    let mut trees = Vec::new();
    for row in rows {
        let row = numbers(row.strip_prefix("tree ")?)?;
        let edges: Vec<usize> = row.get(2..)?.iter().map(|&e| e as usize).collect();
        let start = row[0] as usize;
        if start >= graph.n || edges.iter().any(|&e| e >= graph.edges.len()) {
            return None;
        }
        trees.push(Tree { start, edges });
    }
    (trees.len() <= 32).then_some((Answer::Cover { limit, heaviest }, trees))
}

/// Reads numbers separated by single blanks.
fn numbers(row: &str) -> Option<Vec<u64>> {
    row.split(' ').map(|word| word.parse().ok()).collect()
}

/// Judges a printed count of parts and roots: some parts must have these counts; undecided is false.
fn judge_parts(asked: &Question, output: &str) -> Result<bool, String> {
    let Question { kind, k, sheet, .. } = *asked;
    let limit = asked.limit.ok_or("a best limit shows no parts")?;
    let admitted = admit(kind, Brought::plain(sheet), k, limit, BUFFER);
    let (graph, crews) = admitted.map_err(|n| format!("refused {n}"))?;
    if kind == Kind::Unrooted {
        return Err("an unrooted trial shows no parts".into());
    }
    let (parts, roots) = parse_parts(output).ok_or("no parts text")?;
    if text(&Answer::Parts { parts, roots }, None) != output {
        return Err("not the exact text of these counts".into());
    }
    let plan = plan(&graph, crews, limit).map_err(|v| format!("stop {v}"))?;
    match some_set_has(&plan, parts, roots) {
        _ if roots >= parts => Err("the roots are not fewer than the parts".into()),
        Some(false) => Err("no such set of parts".into()),
        Some(true) => Ok(true),
        None => Ok(false),
    }
}

/// Reads the two counts of a printed "too low parts".
fn parse_parts(output: &str) -> Option<(usize, usize)> {
    let row = output.strip_prefix("too low parts ")?.strip_suffix('\n')?;
    let (parts, roots) = row.split_once(" yards ")?;
    Some((parts.parse().ok()?, roots.parse().ok()?))
}
