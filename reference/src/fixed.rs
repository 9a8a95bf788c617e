//! Whether the rules leave no choice in what is printed of a trial's reply: no other assignment, no shortest path that makes
//! another tree, no other counts of parts and roots.

use crate::assignment::{assign, roots_near, Assigned};
use crate::graph::{Edge, Graph};
use crate::question::Kind;
use crate::rooted::{plan, Plan};
use crate::vans::Crews;

/// Whether every reply to a trial that the rules allow is printed alike. Where that is hard to see the answer is no.
pub fn is_fixed(kind: Kind, graph: &Graph, crews: impl Crews, limit: u64) -> bool {
    if kind == Kind::Unrooted {
        return true;
    }
    let Ok(plan) = plan(graph, crews, limit) else {
        return true;
    };
    let (p, k) = (plan.parts.len(), plan.roots.len());
    let mut roots = vec![0; p];
    match assign(p, k, &plan.allowed, &mut roots) {
        Assigned::Roots => {
            is_only_assignment(k, &plan, &roots)
                && (0..p).all(|part| is_only_union(graph, &plan, part, roots[part].into()))
        }
        _ => counts_of_deficient(k, &plan).is_some(),
    }
}

/// Whether an assignment is the only one: none is left when any part is forbidden its root.
fn is_only_assignment(k: usize, plan: &Plan, roots: &[u8]) -> bool {
    let p = roots.len();
    (0..p).all(|part| {
        let mut allowed = plan.allowed.clone();
        allowed[part * k + usize::from(roots[part])] = 0;
        assign(p, k, &allowed, &mut vec![0; p]) != Assigned::Roots
    })
}

/// Whether all shortest paths from a root to a part bring the same edges to what the tree holds without them.
///
/// Each edge that one of them may bring must then be one that all of them need.
fn is_only_union(graph: &Graph, plan: &Plan, part: usize, root: usize) -> bool {
    let (distance, start) = (&plan.distance[root], plan.roots[root]);
    let held = [&plan.parts[part].edges[..], &plan.left[root].edges].concat();
    let ends = graph.ends(&plan.parts[part].edges);
    let least = ends.iter().filter_map(|&v| distance[v]).min();
    let nearest: Vec<usize> = ends.into_iter().filter(|&v| distance[v] == least).collect();
    let steps = steps_outward(graph, distance);
    let leads = spread(graph.n, steps.iter().map(Step::back), &nearest);
    let mut brought = steps.iter().filter(|step| leads[step.to] && !held.contains(&step.edge));
    brought.all(|step| {
        let others = steps.iter().filter(|other| other.edge != step.edge);
        let is_needed = !spread(graph.n, others.map(Step::back), &nearest)[start];
        is_needed || !may_be_taken(graph.n, &steps, step, start, &nearest)
    })
}

/// Whether a step may be one of a path from a root to one of the nearest vertices: it must be come to without the vertex
/// behind it, and followed without the vertex before it.
///
/// A path comes to no vertex twice. By weightless edges that may forbid other steps too, so a yes is not certain; a no is.
fn may_be_taken(n: usize, steps: &[Step], step: &Step, root: usize, nearest: &[usize]) -> bool {
    let apart_from = |vertex| steps.iter().filter(move |s| s.from != vertex && s.to != vertex);
    step.to != root
        && spread(n, apart_from(step.from).map(Step::back), nearest)[step.to]
        && spread(n, apart_from(step.to).map(Step::forth), &[root])[step.from]
}

/// An edge as a shortest path may cross it.
struct Step {
    from: usize,
    edge: usize,
    to: usize,
}

impl Step {
    fn forth(&self) -> (usize, usize) {
        (self.from, self.to)
    }

    fn back(&self) -> (usize, usize) {
        (self.to, self.from)
    }
}

/// Every step that keeps to the distances; a weightless edge may be crossed either way.
fn steps_outward(graph: &Graph, distance: &[Option<u64>]) -> Vec<Step> {
    let mut steps = Vec::new();
    for (edge, &Edge { a, b, weight }) in graph.edges.iter().enumerate() {
        for (from, to) in [(a, b), (b, a)] {
            let through = distance[from].map(|d| d + weight);
            if through.is_some() && through == distance[to] {
                steps.push(Step { from, edge, to });
            }
        }
    }
    steps
}

/// For each vertex, whether it can be come to from some vertices by pairs of a vertex and the next one.
fn spread(n: usize, pairs: impl Iterator<Item = (usize, usize)>, from: &[usize]) -> Vec<bool> {
    let mut next = vec![Vec::new(); n];
    pairs.for_each(|(one, other)| next[one].push(other));
    let mut reached = vec![false; n];
    let mut open = from.to_vec();
    while let Some(vertex) = open.pop() {
        if !std::mem::replace(&mut reached[vertex], true) {
            open.extend(&next[vertex]);
        }
    }
    reached
}

/// How many parts there may be for every set of them to be looked at.
const MOST_PARTS: usize = 12;

/// The counts of parts and roots that every set with too few roots has, if they are the same for all such sets.
fn counts_of_deficient(k: usize, plan: &Plan) -> Option<(usize, usize)> {
    let p = plan.parts.len();
    if p > MOST_PARTS {
        return None;
    }
    let mut all = (1usize..1 << p).filter_map(|set| {
        let marked: Vec<bool> = (0..p).map(|part| set >> part & 1 == 1).collect();
        let parts = marked.iter().filter(|&&is| is).count();
        let roots = roots_near(k, &plan.allowed, &marked);
        (roots < parts).then_some((parts, roots))
    });
    let first = all.next()?;
    all.all(|other| other == first).then_some(first)
}
