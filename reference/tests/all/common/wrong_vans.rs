//! Trials by wrong readings of a list of vans, each with one thing exchanged.

use super::wrong_gates::{changed, planned};
use reference::assignment::assign;
use reference::cover::Tree;
use reference::distance::from_roots;
use reference::forest::{lowest_unjoined, rooted, tops};
use reference::graph::Graph;
use reference::question::Kind;
use reference::rooted::{carry_out, plan, plan_of, tree, Plan};
use reference::split::{at_limit, split, Split};
use reference::trial::{run, Outcome};

/// The vertices of a list, each once, in the list's order.
pub fn once(roots: &[usize]) -> Vec<usize> {
    let first = |&j: &usize| !roots[..j].contains(&roots[j]);
    (0..roots.len()).filter(first).map(|j| roots[j]).collect()
}

/// The vans at the vertex of one of them, rising.
fn beside(roots: &[usize], van: usize) -> Vec<usize> {
    (0..roots.len()).filter(|&j| roots[j] == roots[van]).collect()
}

/// A trial in which what is left at each vertex goes to those of its vans that are chosen by the plan and the first of them.
fn left_to(
    (kind, graph, roots, limit): (Kind, &Graph, &[usize], u64),
    choose: impl Fn(&Plan, &[usize]) -> Vec<usize>,
) -> Outcome {
    let change = |mut plan: Plan| {
        for van in 0..roots.len() {
            let here = beside(roots, van);
            if here[0] == van {
                let chosen = choose(&plan, &here);
                let edges = std::mem::take(&mut plan.left[van].edges);
                chosen.into_iter().for_each(|j| plan.left[j].edges = edges.clone());
            }
        }
        plan
    };
    planned((kind, graph, roots, limit), change, |plan, van, part| tree(graph, plan, van, part))
}

/// What is left goes to the van with the highest number.
pub fn left_to_highest(kind: Kind, graph: &Graph, roots: &[usize], limit: u64) -> Outcome {
    left_to((kind, graph, roots, limit), |_, here| vec![here[here.len() - 1]])
}

/// What is left goes to each van there.
pub fn left_to_each(kind: Kind, graph: &Graph, roots: &[usize], limit: u64) -> Outcome {
    left_to((kind, graph, roots, limit), |_, here| here.to_vec())
}

/// What is left goes to the lowest van there that has no part, or else to the lowest.
pub fn left_to_idle(kind: Kind, graph: &Graph, roots: &[usize], limit: u64) -> Outcome {
    left_to((kind, graph, roots, limit), |plan, here| {
        let mut vans = vec![0; plan.parts.len()];
        assign(plan.parts.len(), roots.len(), &plan.allowed, &mut vans);
        let is_idle = |van: &&usize| !vans.contains(&(**van as u8));
        vec![*here.iter().find(is_idle).unwrap_or(&here[0])]
    })
}

/// A van with a part does without what is left to it.
pub fn left_or_part(kind: Kind, graph: &Graph, roots: &[usize], limit: u64) -> Outcome {
    planned(
        (kind, graph, roots, limit),
        |plan| plan,
        |plan, van, part| {
            let mut plan = plan.clone();
            if part.is_some() {
                plan.left[van].edges.clear();
            }
            tree(graph, &plan, van, part)
        },
    )
}

/// A trial with another count of the vans near some parts: of those near any, their list.
fn counting(
    (kind, graph, roots, limit): (Kind, &Graph, &[usize], u64),
    count: impl Fn(&[usize]) -> usize,
) -> Outcome {
    match run(kind, graph, roots, limit) {
        Outcome::Parts { parts, .. } => {
            let plan = plan(graph, roots, limit).expect("every vertex is joined");
            let k = roots.len();
            let shown = (0..plan.parts.len()).filter(|&i| parts.contains(&plan.parts[i]));
            let shown: Vec<usize> = shown.collect();
            let is_near = |&j: &usize| shown.iter().any(|&i| plan.allowed[i * k + j] == 1);
            let near: Vec<usize> = (0..k).filter(is_near).map(|j| roots[j]).collect();
            Outcome::Parts { parts, roots: count(&near) }
        }
        outcome => outcome,
    }
}

/// D counts the vertices that have vans.
pub fn counting_stops(kind: Kind, graph: &Graph, roots: &[usize], limit: u64) -> Outcome {
    counting((kind, graph, roots, limit), |near| once(near).len())
}

/// D counts all vans, near or not.
pub fn counting_all(kind: Kind, graph: &Graph, roots: &[usize], limit: u64) -> Outcome {
    counting((kind, graph, roots, limit), |_| roots.len())
}

/// Of the vans at one vertex only the first gets a part.
pub fn one_part_a_stop(kind: Kind, graph: &Graph, roots: &[usize], limit: u64) -> Outcome {
    let change = |mut plan: Plan| {
        for (place, byte) in plan.allowed.iter_mut().enumerate() {
            let van = place % roots.len();
            if beside(roots, van)[0] != van {
                *byte = 0;
            }
        }
        plan
    };
    planned((kind, graph, roots, limit), change, |plan, van, part| tree(graph, plan, van, part))
}

/// A van whose vertex an earlier van has is no van.
pub fn merged(kind: Kind, graph: &Graph, roots: &[usize], limit: u64) -> Outcome {
    match kind {
        Kind::Rooted => run(kind, graph, once(roots), limit),
        Kind::Unrooted => run(kind, graph, roots, limit),
    }
}

/// A van whose vertex an earlier van has is left out of the cover.
pub fn dropped(kind: Kind, graph: &Graph, roots: &[usize], limit: u64) -> Outcome {
    match (kind, run(kind, graph, roots, limit)) {
        (Kind::Rooted, Outcome::Cover(trees)) => {
            let first = (0..trees.len()).filter(|&j| beside(roots, j)[0] == j);
            Outcome::Cover(first.map(|j| trees[j].clone()).collect())
        }
        (_, outcome) => outcome,
    }
}

/// The same, where its tree is bare.
pub fn dropped_if_bare(kind: Kind, graph: &Graph, roots: &[usize], limit: u64) -> Outcome {
    match (kind, run(kind, graph, roots, limit)) {
        (Kind::Rooted, Outcome::Cover(trees)) => {
            let is_kept = |&j: &usize| beside(roots, j)[0] == j || !trees[j].edges.is_empty();
            let kept = (0..trees.len()).filter(is_kept);
            Outcome::Cover(kept.map(|j| trees[j].clone()).collect())
        }
        (_, outcome) => outcome,
    }
}

/// The roots 0 to k - 1, as far as there are vertices.
fn in_a_row(graph: &Graph, roots: &[usize]) -> Vec<usize> {
    (0..roots.len()).map(|j| j % graph.n).collect()
}

/// Parts are near a van by the distances from vertex j and not from the van's.
pub fn measured_in_a_row(kind: Kind, graph: &Graph, roots: &[usize], limit: u64) -> Outcome {
    let change = |plan: Plan| {
        let split = Split { parts: plan.parts, left: plan.left };
        plan_of(graph, limit, split, from_roots(graph, in_a_row(graph, roots)))
    };
    planned((kind, graph, roots, limit), change, |plan, van, part| tree(graph, plan, van, part))
}

/// The plan of a split is carried out.
fn carried_out(graph: &Graph, roots: &[usize], limit: u64, split: Split) -> Outcome {
    let plan = plan_of(graph, limit, split, from_roots(graph, roots));
    carry_out(roots.len(), &plan, |van, part| tree(graph, &plan, van, part))
}

/// The vertices 0 to k - 1 count as joined from the start, and not those of the list.
pub fn joined_in_a_row(kind: Kind, graph: &Graph, roots: &[usize], limit: u64) -> Outcome {
    if kind == Kind::Unrooted {
        return run(kind, graph, roots, limit);
    }
    let forest = rooted(graph, in_a_row(graph, roots), limit);
    match lowest_unjoined(&forest, roots) {
        Some(vertex) => Outcome::Stop(vertex),
        None => carried_out(graph, roots, limit, split(graph, &forest.kept, roots, limit)),
    }
}

/// The vertices below k are taken for yards where the lowest unjoined one is looked for.
pub fn unjoined_from_k_on(kind: Kind, graph: &Graph, roots: &[usize], limit: u64) -> Outcome {
    if kind == Kind::Unrooted {
        return run(kind, graph, roots, limit);
    }
    let (forest, split) = at_limit(kind, graph, roots, limit);
    let joined: Vec<usize> = roots.iter().map(|&root| forest.label[root]).collect();
    let is_unjoined = |v: &usize| !joined.contains(&forest.label[*v]);
    match (roots.len()..graph.n).find(is_unjoined) {
        Some(vertex) => Outcome::Stop(vertex),
        None => carried_out(graph, roots, limit, split),
    }
}

/// The trees of the forest are rooted at their lowest vertices, as unrooted ones are, and not at their yards.
pub fn rooted_at_lowest(kind: Kind, graph: &Graph, roots: &[usize], limit: u64) -> Outcome {
    let (forest, _) = at_limit(kind, graph, roots, limit);
    if kind == Kind::Unrooted || lowest_unjoined(&forest, roots).is_some() {
        return run(kind, graph, roots, limit);
    }
    let found = split(graph, &forest.kept, &tops(&forest), limit);
    let mut left: Vec<Tree> = roots.iter().map(|&root| Tree::new(root, vec![])).collect();
    for tree in found.left {
        let is_here = |&root: &usize| forest.label[root] == tree.start;
        let van = roots.iter().position(is_here).expect("a yard of the tree");
        left[van].edges = tree.edges;
    }
    carried_out(graph, roots, limit, Split { parts: found.parts, left })
}

/// The path to a part begins at vertex j and not at the van's.
pub fn led_from_a_row(kind: Kind, graph: &Graph, roots: &[usize], limit: u64) -> Outcome {
    planned(
        (kind, graph, roots, limit),
        |plan| plan,
        |plan, van, part| {
            let row = Plan { roots: in_a_row(graph, roots), ..plan.clone() };
            Tree { start: roots[van], ..tree(graph, &row, van, part) }
        },
    )
}

/// The trees of a cover name 0 to k - 1 as their starts.
pub fn started_in_a_row(kind: Kind, graph: &Graph, roots: &[usize], limit: u64) -> Outcome {
    match (kind, run(kind, graph, roots, limit)) {
        (Kind::Rooted, Outcome::Cover(trees)) => {
            let started = |(start, tree): (usize, Tree)| Tree { start, edges: tree.edges };
            Outcome::Cover(trees.into_iter().enumerate().map(started).collect())
        }
        (_, outcome) => outcome,
    }
}

/// The trees of a cover name their lowest vertices as their starts, as unrooted ones do.
pub fn started_at_lowest(kind: Kind, graph: &Graph, roots: &[usize], limit: u64) -> Outcome {
    changed(run(kind, graph, roots, limit), |tree| {
        Tree::new(tree.vertices(graph)[0], tree.edges.clone())
    })
}
