//! Trials by wrong readings of weight 0, each with one thing exchanged.

use reference::cover::Tree;
use reference::distance::{closest, from_roots, path};
use reference::forest::{thin, tops};
use reference::graph::{Edge, Graph};
use reference::question::Kind;
use reference::rooted::{carry_out, plan, plan_of, tree, Plan};
use reference::split::{at_limit, split, Split};
use reference::trial::{run, Outcome};
use reference::unrooted;

/// The graph with another weight in place of 0.
pub fn with_0_as(graph: &Graph, weight: u64) -> Graph {
    let edge = |e: &Edge| Edge { weight: if e.weight == 0 { weight } else { e.weight }, ..*e };
    Graph { n: graph.n, edges: graph.edges.iter().map(edge).collect() }
}

/// At limit 0 no edge is left.
pub fn dropped_at_0(kind: Kind, graph: &Graph, roots: &[usize], limit: u64) -> Outcome {
    match limit {
        0 => run(kind, &with_0_as(graph, 1), roots, 0),
        _ => run(kind, graph, roots, limit),
    }
}

/// At limit 0 every sum of weights reaches the threshold, so that each edge is a part, as with weights and threshold 1.
pub fn split_at_0(kind: Kind, graph: &Graph, roots: &[usize], limit: u64) -> Outcome {
    let (forest, _) = at_limit(kind, graph, roots, limit);
    let tops = tops(&forest);
    let needed = unrooted::needs(graph, &forest, limit);
    let apart = |roots: &[usize]| split(&with_0_as(graph, 1), &forest.kept, roots, 1);
    match (kind, limit) {
        (Kind::Unrooted, 0) => {
            unrooted::carry_out(graph, roots.len(), &forest, apart(&tops), needed)
        }
        (Kind::Rooted, 0) if plan(graph, roots, 0).is_ok() => {
            let plan = plan_of(graph, 0, apart(roots), from_roots(graph, roots));
            carry_out(roots.len(), &plan, |root, part| tree(graph, &plan, root, part))
        }
        _ => run(kind, graph, roots, limit),
    }
}

/// An unrooted trial at limit 0 with other needs: a sum over the components, each by its number of edges.
pub fn needing(
    kind: Kind,
    graph: &Graph,
    roots: &[usize],
    limit: u64,
    need: fn(usize) -> u64,
) -> Outcome {
    if (kind, limit) != (Kind::Unrooted, 0) {
        return run(kind, graph, roots, limit);
    }
    let (forest, split) = at_limit(kind, graph, roots, 0);
    let needed = split.left.iter().map(|left| need(left.edges.len())).sum();
    unrooted::carry_out(graph, roots.len(), &forest, split, needed)
}

/// Without roots leftovers that weigh nothing are taken for bare ones, where their component has a part.
pub fn weightless_left_out(kind: Kind, graph: &Graph, roots: &[usize], limit: u64) -> Outcome {
    if kind == Kind::Rooted {
        return run(kind, graph, roots, limit);
    }
    let (forest, Split { parts, mut left }) = at_limit(kind, graph, roots, limit);
    let needed = unrooted::needs(graph, &forest, limit);
    let has_part = |top: usize| parts.iter().any(|part| forest.label[part.start] == top);
    for tree in left.iter_mut().filter(|tree| has_part(tree.start)) {
        if graph.weight(&tree.edges) == 0 {
            tree.edges.clear();
        }
    }
    unrooted::carry_out(graph, roots.len(), &forest, Split { parts, left }, needed)
}

/// A rooted trial with another plan and other trees; the plan is made of the right one.
pub fn planned(
    (kind, graph, roots, limit): (Kind, &Graph, &[usize], u64),
    change: impl Fn(Plan) -> Plan,
    other_tree: impl Fn(&Plan, usize, Option<usize>) -> Tree,
) -> Outcome {
    if kind == Kind::Unrooted {
        return run(kind, graph, roots, limit);
    }
    match plan(graph, roots, limit).map(change) {
        Ok(plan) => carry_out(roots.len(), &plan, |root, part| other_tree(&plan, root, part)),
        Err(vertex) => Outcome::Stop(vertex),
    }
}

/// Leftovers at the roots that weigh nothing are taken for bare ones.
pub fn weightless_left_out_at_roots(
    kind: Kind,
    graph: &Graph,
    roots: &[usize],
    limit: u64,
) -> Outcome {
    let change = |mut plan: Plan| {
        let weightless = plan.left.iter_mut().filter(|left| graph.weight(&left.edges) == 0);
        weightless.for_each(|left| left.edges.clear());
        plan
    };
    planned((kind, graph, roots, limit), change, |plan, root, part| tree(graph, plan, root, part))
}

/// The path back from a part ends where the distance is 0, be it at the root or not.
pub fn to_any_at_0(kind: Kind, graph: &Graph, roots: &[usize], limit: u64) -> Outcome {
    planned(
        (kind, graph, roots, limit),
        |plan| plan,
        |plan, root, part| {
            let Some(part) = part else { return tree(graph, plan, root, None) };
            let (edges, distance) = (&plan.parts[part].edges, &plan.distance[root]);
            let (_, mut here) = closest(distance, &graph.ends(edges)).expect("a near part");
            let mut union = [&edges[..], &plan.left[root].edges].concat();
            for e in path(graph, plan.roots[root], here) {
                if distance[here] != Some(0) {
                    union.push(e);
                    here = graph.edges[e].a + graph.edges[e].b - here;
                }
            }
            union.sort_unstable();
            union.dedup();
            Tree::new(plan.roots[root], thin(graph, &union))
        },
    )
}

/// The walk to a part goes on by each weightless edge of its vertices and comes back.
pub fn there_and_back(kind: Kind, graph: &Graph, roots: &[usize], limit: u64) -> Outcome {
    planned(
        (kind, graph, roots, limit),
        |plan| plan,
        |plan, root, part| {
            let right = tree(graph, plan, root, part);
            let Some(part) = part else { return right };
            let ends = graph.ends(&plan.parts[part].edges);
            let (_, near) = closest(&plan.distance[root], &ends).expect("a near part");
            let stops = [graph.ends(&path(graph, plan.roots[root], near)), vec![near]].concat();
            let is_beside = |&e: &usize| {
                let edge = graph.edges[e];
                edge.weight == 0 && (stops.contains(&edge.a) || stops.contains(&edge.b))
            };
            let mut union: Vec<usize> = (0..graph.edges.len()).filter(is_beside).collect();
            union.extend(&right.edges);
            union.sort_unstable();
            union.dedup();
            Tree::new(plan.roots[root], thin(graph, &union))
        },
    )
}

/// Weight 0 taken for no edge in the search for distances.
pub fn not_crossed(kind: Kind, graph: &Graph, roots: &[usize], limit: u64) -> Outcome {
    let change = |plan: Plan| {
        let split = Split { parts: plan.parts, left: plan.left };
        plan_of(graph, limit, split, from_roots(&with_0_as(graph, 1 << 40), roots))
    };
    planned((kind, graph, roots, limit), change, |plan, root, part| tree(graph, plan, root, part))
}

/// A weightless edge between two roots is kept at the lower one.
pub fn kept_between_roots(kind: Kind, graph: &Graph, roots: &[usize], limit: u64) -> Outcome {
    let change = |mut plan: Plan| {
        for (e, edge) in graph.edges.iter().enumerate() {
            let van = |end: usize| roots.iter().position(|&root| root == end);
            if let (0, Some(one), Some(other)) = (edge.weight, van(edge.a), van(edge.b)) {
                plan.left[one.min(other)].edges.push(e);
            }
        }
        plan
    };
    planned((kind, graph, roots, limit), change, |plan, root, part| tree(graph, plan, root, part))
}

/// The trees of an accepted trial, each changed.
pub fn changed(outcome: Outcome, change: impl Fn(&Tree) -> Tree) -> Outcome {
    match outcome {
        Outcome::Cover(trees) => Outcome::Cover(trees.iter().map(change).collect()),
        other => other,
    }
}

/// Weightless edges that close a loop within a tree are filed too.
pub fn filed_with_loops(kind: Kind, graph: &Graph, roots: &[usize], limit: u64) -> Outcome {
    changed(run(kind, graph, roots, limit), |tree| {
        let inside = tree.vertices(graph);
        let closes = |&e: &usize| {
            let edge = graph.edges[e];
            edge.weight == 0 && inside.contains(&edge.a) && inside.contains(&edge.b)
        };
        let mut edges: Vec<usize> = (0..graph.edges.len()).filter(closes).collect();
        edges.extend(tree.edges.iter().filter(|&&e| graph.edges[e].weight > 0));
        Tree::new(tree.start, edges)
    })
}
