//! Judging another implementation's reply to a trial, a best-limit question or one with a number of trials.
//!
//! Where the rules leave a choice free (assignment, shortest path, the parts shown) any allowed
//! choice passes; everything else must be exactly what the rules say.

use crate::assignment::{assign, Assigned};
use crate::brought::Brought;
use crate::check::check_on;
use crate::cover::{decode, filed_length, gather, Tree};
use crate::graph::Graph;
use crate::judge_parts;
use crate::judge_tree::FiledTree;
use crate::question::{Answer, Kind};
use crate::rooted::{plan, Plan};
use crate::trial::{file, run, Outcome};
use crate::{best as search, trial as at_limit, within};

/// What the replying side did: its answer, and the lent buffer before and after.
#[derive(Clone, Copy, Debug)]
pub struct Reply<'a> {
    pub answer: &'a Answer,
    pub before: &'a [u8],
    pub after: &'a [u8],
}

/// Judges a reply to a trial without lists.
pub fn trial(kind: Kind, sheet: &[u8], k: u64, limit: u64, reply: Reply) -> Result<(), String> {
    trial_with(kind, Brought::plain(sheet), k, limit, reply)
}

/// Judges a reply to a trial; the error says what is wrong with it.
pub fn trial_with(
    kind: Kind,
    brought: Brought,
    k: u64,
    limit: u64,
    reply: Reply,
) -> Result<(), String> {
    same_length(reply)?;
    match at_limit::admit(kind, brought, k, limit, reply.before.len()) {
        Err(number) => exactly(&Answer::Refused(number), reply.before, reply),
        Ok((graph, roots)) => trial_on(kind, &graph, &roots, limit, reply),
    }
}

/// Judges a reply to a best-limit question without lists.
pub fn best(kind: Kind, sheet: &[u8], k: u64, reply: Reply) -> Result<(), String> {
    best_with(kind, Brought::plain(sheet), k, reply)
}

/// Judges a reply to a best-limit question; the error says what is wrong with it.
pub fn best_with(kind: Kind, brought: Brought, k: u64, reply: Reply) -> Result<(), String> {
    same_length(reply)?;
    let (graph, roots) = match search::admit(kind, brought, k, reply.before.len()) {
        Ok(admitted) => admitted,
        Err(number) => return exactly(&Answer::Refused(number), reply.before, reply),
    };
    let limit = search::search(kind, &graph, &roots).map(|(limit, _)| limit);
    search_on(kind, &graph, &roots, limit, reply)
}

/// Judges a reply to a question with a number of trials p, but for the trials, the floor and "spent", which are not in it; the
/// error says what is wrong with it.
pub fn within_with(
    kind: Kind,
    brought: Brought,
    k: u64,
    p: u64,
    reply: Reply,
) -> Result<(), String> {
    same_length(reply)?;
    let (graph, roots) = match within::admit(kind, brought, k, p, reply.before.len()) {
        Ok(admitted) => admitted,
        Err(number) => return exactly(&Answer::Refused(number), reply.before, reply),
    };
    let high = within::stand(kind, &graph, &roots, p).map(|at| at.high);
    search_on(kind, &graph, &roots, high, reply)
}

/// Judges a reply to an admitted search that comes to a limit, or finds that there is no cover.
fn search_on(
    kind: Kind,
    graph: &Graph,
    roots: &[usize],
    limit: Option<u64>,
    reply: Reply,
) -> Result<(), String> {
    match (limit, reply.answer) {
        (None, _) => exactly(&Answer::NoCover, reply.before, reply),
        (Some(limit), Answer::Cover { .. }) => trial_on(kind, graph, roots, limit, reply),
        (Some(limit), other) => Err(format!("a cover at limit {limit} is due, not {other:?}")),
    }
}

/// Judges a reply to an admitted trial.
fn trial_on(
    kind: Kind,
    graph: &Graph,
    roots: &[usize],
    limit: u64,
    reply: Reply,
) -> Result<(), String> {
    match (kind, reply.answer) {
        (Kind::Rooted, &Answer::Cover { limit: l, heaviest }) if l == limit => {
            rooted_cover(graph, roots, limit, heaviest, reply)
        }
        (Kind::Rooted, &Answer::Parts { parts, roots: near }) => {
            rooted_parts(graph, roots, limit, (parts, near), reply)
        }
        _ => {
            let outcome = run(kind, graph, roots, limit);
            exact_outcome(graph, limit, &outcome, reply)
        }
    }
}

/// The answer and all bytes are those of an outcome.
fn exact_outcome(graph: &Graph, limit: u64, outcome: &Outcome, reply: Reply) -> Result<(), String> {
    let mut due_bytes = reply.before.to_vec();
    let due = file(graph, limit, outcome, &mut due_bytes);
    exactly(&due, &due_bytes, reply)
}

/// The answer and all bytes are the due ones.
fn exactly(due: &Answer, due_bytes: &[u8], reply: Reply) -> Result<(), String> {
    if due != reply.answer {
        return Err(format!("{due:?} is due, not {:?}", reply.answer));
    }
    match (0..due_bytes.len()).find(|&i| due_bytes[i] != reply.after[i]) {
        Some(place) => Err(format!("byte {place} is wrong")),
        None => Ok(()),
    }
}

/// The buffer has kept its length.
fn same_length(reply: Reply) -> Result<(), String> {
    if reply.before.len() != reply.after.len() {
        return Err("the buffer changed its length".into());
    }
    Ok(())
}

/// Judges an accepted rooted cover.
fn rooted_cover(
    graph: &Graph,
    roots: &[usize],
    limit: u64,
    heaviest: u64,
    reply: Reply,
) -> Result<(), String> {
    let plan = plan(graph, roots, limit).map_err(|v| format!("too low, stop {v} is due"))?;
    let bytes = written(reply)?;
    match check_on(Kind::Rooted, graph, roots, bytes) {
        Ok(weight) if weight == heaviest => {}
        Ok(weight) => return Err(format!("the heaviest is {weight}, not {heaviest}")),
        Err(number) => return Err(format!("not a cover: {number}")),
    }
    let filed = decode(bytes).map_err(|number| format!("not a cover: {number}"))?;
    if fits_some_assignment(graph, &plan, &gather(&filed)) {
        return Ok(());
    }
    Err("no assignment and shortest paths give these trees".into())
}

/// Whether the trees of a rooted cover come from some assignment and some shortest paths.
///
/// Every root is to be given one of its possible parts or "no part", every part going to one root.
pub fn fits_some_assignment(graph: &Graph, plan: &Plan, trees: &[Tree]) -> bool {
    let (p, k) = (plan.parts.len(), plan.roots.len());
    if p > k {
        return false;
    }
    let filed_tree = |root: usize| FiledTree::new(graph, &plan.distance[root], &trees[root]);
    let filed: Vec<FiledTree> = (0..k).map(filed_tree).collect();
    let mut possible = Vec::with_capacity(k * k);
    for i in 0..k {
        for (root, tree) in filed.iter().enumerate() {
            let left = &plan.left[root];
            let fits = match plan.parts.get(i) {
                Some(part) => plan.allowed[i * k + root] == 1 && tree.has_part(part, left),
                None => tree.has_no_part(left),
            };
            possible.push(u8::from(fits));
        }
    }
    assign(k, k, &possible, &mut vec![0; k]) == Assigned::Roots
}

/// Judges a rooted "too low" that shows parts.
fn rooted_parts(
    graph: &Graph,
    roots: &[usize],
    limit: u64,
    (parts, near): (usize, usize),
    reply: Reply,
) -> Result<(), String> {
    let plan = plan(graph, roots, limit).map_err(|v| format!("too low, stop {v} is due"))?;
    let filed = decode(written(reply)?).map_err(|number| format!("no cover bytes: {number}"))?;
    let below_t = |entry: &(usize, usize)| entry.0 < filed.starts.len();
    let rising = filed.entries.windows(2).all(|pair| pair[0] < pair[1]);
    if !rising || !filed.entries.iter().all(below_t) {
        return Err("the entries are out of order".into());
    }
    if filed.starts.len() != parts {
        return Err(format!("{} parts are written", filed.starts.len()));
    }
    judge_parts::judge(&plan, &gather(&filed), near)
}

/// The written bytes, as long as they announce; the rest of the buffer must be untouched.
fn written<'a>(reply: Reply<'a>) -> Result<&'a [u8], String> {
    match filed_length(reply.after) {
        Some(length) if length <= reply.after.len() => {
            if reply.after[length..] != reply.before[length..] {
                return Err(format!("a byte from {length} on changed"));
            }
            Ok(&reply.after[..length])
        }
        _ => Err("the announced bytes do not fit the buffer".into()),
    }
}
