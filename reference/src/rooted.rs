//! A rooted trial at a limit: forest, parts, assignment of the parts to roots, and the trees.

use crate::assignment::{assign, roots_near, Assigned};
use crate::cover::Tree;
use crate::distance::{closest, from_roots, path};
use crate::forest::{lowest_unjoined, thin};
use crate::graph::Graph;
use crate::question::Kind;
use crate::split::{at_limit, Split};
use crate::trial::Outcome;
use crate::vans::Crews;

/// Everything a rooted trial fixes before the parts are assigned.
#[derive(Clone, Debug)]
pub struct Plan {
    /// The parts in the order they were split off.
    pub parts: Vec<Tree>,
    /// The vertex of each root; several roots may have one vertex.
    pub roots: Vec<usize>,
    /// What is left to each root.
    pub left: Vec<Tree>,
    /// The distances from each root.
    pub distance: Vec<Vec<Option<u64>>>,
    /// For part i and root j, byte i * k + j is 1 where the root is within the limit of the part.
    pub allowed: Vec<u8>,
}

/// Plans a rooted trial, or gives the lowest vertex joined to no root.
pub fn plan(graph: &Graph, crews: impl Crews, limit: u64) -> Result<Plan, usize> {
    let (forest, split) = at_limit(Kind::Rooted, graph, &crews, limit);
    match lowest_unjoined(&forest, &crews) {
        Some(vertex) => Err(vertex),
        None => Ok(plan_of(graph, limit, split, from_roots(graph, &crews))),
    }
}

/// The plan of parts and leftovers with the distances from the roots.
pub fn plan_of(graph: &Graph, limit: u64, split: Split, distance: Vec<Vec<Option<u64>>>) -> Plan {
    let mut allowed = Vec::with_capacity(split.parts.len() * distance.len());
    for part in &split.parts {
        let ends = graph.ends(&part.edges);
        for from_root in &distance {
            let near = closest(from_root, &ends).is_some_and(|(d, _)| d <= limit);
            allowed.push(u8::from(near));
        }
    }
    let roots = split.left.iter().map(|left| left.start).collect();
    Plan { parts: split.parts, roots, left: split.left, distance, allowed }
}

/// Runs a rooted trial at a limit.
pub fn run(graph: &Graph, crews: impl Crews, limit: u64) -> Outcome {
    match plan(graph, crews, limit) {
        Ok(plan) => {
            let k = plan.roots.len();
            carry_out(k, &plan, |root, part| tree(graph, &plan, root, part))
        }
        Err(vertex) => Outcome::Stop(vertex),
    }
}

/// Assigns the parts of a plan; the trees are those given for each root and its part if any.
pub fn carry_out(k: usize, plan: &Plan, tree: impl Fn(usize, Option<usize>) -> Tree) -> Outcome {
    let p = plan.parts.len();
    let mut bytes = vec![0; p];
    match assign(p, k, &plan.allowed, &mut bytes) {
        Assigned::Roots => {
            let part_of = |root: usize| bytes.iter().position(|&r| usize::from(r) == root);
            Outcome::Cover((0..k).map(|root| tree(root, part_of(root))).collect())
        }
        Assigned::Deficient => deficient(k, plan, &bytes),
        Assigned::Refused(_) => unreachable!("at most 255 parts and 32 roots"),
    }
}

/// The tree of one root: its part if any, one shortest path to it and its leftover, thinned.
pub fn tree(graph: &Graph, plan: &Plan, root: usize, part: Option<usize>) -> Tree {
    let mut union = plan.left[root].edges.clone();
    if let Some(part) = part {
        let edges = &plan.parts[part].edges;
        let distance = &plan.distance[root];
        let nearest = closest(distance, &graph.ends(edges));
        let (_, vertex) = nearest.expect("an assigned part is near its root");
        union.extend(edges);
        union.extend(path(graph, plan.roots[root], vertex));
    }
    union.sort_unstable();
    union.dedup();
    Tree::new(plan.roots[root], thin(graph, &union))
}

/// The marked parts by smallest edge, and the number of roots near any of them.
fn deficient(k: usize, plan: &Plan, marks: &[u8]) -> Outcome {
    let marked: Vec<bool> = marks.iter().map(|&mark| mark == 1).collect();
    let chosen = (0..plan.parts.len()).filter(|&i| marked[i]);
    let mut parts: Vec<Tree> = chosen.map(|i| plan.parts[i].clone()).collect();
    parts.sort_by_key(|part| part.edges[0]);
    let roots = roots_near(k, &plan.allowed, &marked);
    Outcome::Parts { parts, roots }
}
