//! Another planner's replies: allowed ones, with each free choice made the other way round.

use reference::assignment::{assign, roots_near, Assigned};
use reference::cover::{decode, encode, gather, heaviest, Tree};
use reference::distance::closest;
use reference::districts::{Asked, Record};
use reference::forest::thin;
use reference::graph::{read, Graph};
use reference::judge_districts::own_reply;
use reference::question::{Answer, Kind, BUFFER};
use reference::replies::Full;
use reference::rooted::{plan, Plan};
use reference::rounds::{question, rounds, text};

/// The reply to a record with the parts and the roots taken from the last on, and with other shortest paths; nothing for a
/// check.
pub fn other_reply(record: &Record) -> Option<Full> {
    let own = own_reply(record)?;
    let limit = match (&record.asked, own.case) {
        (Asked::Trial { limit, .. }, 0 | 2) => *limit,
        (Asked::Best { .. } | Asked::Within { .. }, 0) => own.values[0],
        _ => return Some(own),
    };
    if record.kind == Kind::Unrooted {
        return Some(own);
    }
    let graph = record.brought().graph().expect("an answered question");
    let crews = record.brought().crews(record.kind, graph.n, record.k as u64).expect("roots");
    let plan = plan(&graph, crews, limit).expect("every vertex is joined to a root");
    Some(other_choices(&graph, limit, &plan))
}

/// The reply of a planned trial.
fn other_choices(graph: &Graph, limit: u64, plan: &Plan) -> Full {
    let (p, k) = (plan.parts.len(), plan.roots.len());
    let backward: Vec<u8> = plan.allowed.iter().rev().copied().collect();
    let mut bytes = vec![0; p];
    let assigned = assign(p, k, &backward, &mut bytes);
    bytes.reverse();
    let (case, values, trees) = if assigned == Assigned::Roots {
        let part_of =
            |root: usize| bytes.iter().position(|&byte| k - 1 - usize::from(byte) == root);
        let tree = |root: usize| other_tree(graph, plan, root, part_of(root));
        let trees: Vec<Tree> = (0..k).map(tree).collect();
        (0, vec![limit, heaviest(graph, &trees), k as u64], trees)
    } else {
        let marked: Vec<bool> = bytes.iter().map(|&byte| byte == 1).collect();
        let chosen = (0..p).filter(|&i| marked[i]);
        let mut parts: Vec<Tree> = chosen.map(|i| plan.parts[i].clone()).collect();
        parts.sort_by_key(|part| part.edges[0]);
        let near = roots_near(k, &plan.allowed, &marked);
        (2, vec![parts.len() as u64, near as u64], parts)
    };
    Full { case, values, front: encode(&trees), rest: 1 }
}

/// The tree of one root, with a path to the highest of the nearest vertices of its part.
fn other_tree(graph: &Graph, plan: &Plan, root: usize, part: Option<usize>) -> Tree {
    let mut union = plan.left[root].edges.clone();
    if let Some(part) = part {
        let edges = &plan.parts[part].edges;
        let distance = &plan.distance[root];
        let ends = graph.ends(edges);
        let near = closest(distance, &ends).map(|(near, _)| near);
        let target = ends.iter().rev().find(|&&v| distance[v] == near).expect("a nearest vertex");
        union.extend(edges);
        union.extend(other_path(graph, distance, plan.roots[root], *target));
    }
    union.sort_unstable();
    union.dedup();
    Tree::new(plan.roots[root], thin(graph, &union))
}

/// A shortest path from a root, each time by the highest last edge that leads back to the root without coming to a vertex
/// twice; by weightless edges it may go a long way round.
fn other_path(graph: &Graph, distance: &[Option<u64>], root: usize, target: usize) -> Vec<usize> {
    let mut path = Vec::new();
    let mut seen = vec![false; graph.n];
    assert!(is_led_back(graph, distance, root, target, &mut seen, &mut path));
    path
}

/// Whether the root is come to from a vertex by vertices not seen before; the edges on the way are put behind the path's.
fn is_led_back(
    graph: &Graph,
    distance: &[Option<u64>],
    root: usize,
    vertex: usize,
    seen: &mut Vec<bool>,
    path: &mut Vec<usize>,
) -> bool {
    seen[vertex] = true;
    if vertex == root {
        return true;
    }
    for (e, edge) in graph.edges.iter().enumerate().rev() {
        let before = if edge.a == vertex { edge.b } else { edge.a };
        let is_last = (edge.a == vertex || edge.b == vertex)
            && distance[before].map(|d| d + edge.weight) == distance[vertex];
        if is_last && !seen[before] {
            path.push(e);
            if is_led_back(graph, distance, root, before, seen, path) {
                return true;
            }
            path.pop();
        }
    }
    false
}

/// The text of another program `rounds`, which makes these choices.
pub fn other_rounds(input: &[u8]) -> String {
    let own = rounds(input);
    let Ok(question) = question(input) else { return own };
    let Ok(graph) = read(question.sheet) else { return own };
    let asked = match question.limit {
        Some(limit) => Asked::Trial { limit, room: BUFFER },
        None => Asked::Best { room: BUFFER },
    };
    let record = Record::plain(asked, question.kind, question.k as usize, question.sheet);
    let full = other_reply(&record).expect("no check");
    match (full.case, &full.values[..]) {
        (0, &[limit, heaviest, _]) => {
            let trees = gather(&decode(&full.front).expect("cover bytes"));
            text(&Answer::Cover { limit, heaviest }, Some((&graph, &trees)))
        }
        (2, &[parts, roots]) => {
            text(&Answer::Parts { parts: parts as usize, roots: roots as usize }, None)
        }
        _ => own,
    }
}
