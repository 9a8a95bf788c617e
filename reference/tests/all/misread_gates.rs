//! A wrong reading of weight 0 would show in the records.

use crate::common::made_records;
use crate::common::readings::{Reading, RIGHT};
use crate::common::wrong_gates::*;
use reference::best::cover_exists;
use reference::check::{check_on, is_tree};
use reference::cover::{decode, encode, gather, Tree};
use reference::districts::{Asked, Record};
use reference::forest::thin;
use reference::graph::{read, Edge, Graph};
use reference::question::Kind;
use reference::trial::run;

/// 16 for weight 0, as before the request.
fn refused_with_16(record: &Record) -> Result<Graph, u16> {
    match read(&record.sheet) {
        Ok(graph) if graph.edges.iter().any(|edge| edge.weight == 0) => Err(16),
        _ => record.brought().graph(),
    }
}

/// Weight 0 of any class counted as 1, where a list is brought.
fn adjusted_to_1(record: &Record) -> Result<Graph, u16> {
    let graph = record.brought().graph()?;
    Ok(if record.classes.is_some() { with_0_as(&graph, 1) } else { graph })
}

/// A loop of weightless edges is no loop to the check.
fn loops_passed(kind: Kind, graph: &Graph, roots: &[usize], cover: &[u8]) -> Result<u64, u16> {
    let said = check_on(kind, graph, roots, cover);
    let Ok(filed) = decode(cover) else { return said };
    let without_loops = |tree: Tree| {
        let thinned = Tree::new(tree.start, thin(graph, &tree.edges));
        let is_weightless = graph.weight(&thinned.edges) == graph.weight(&tree.edges);
        if is_weightless && is_tree(graph, &thinned) {
            thinned
        } else {
            tree
        }
    };
    match said {
        Err(34) => {
            let trees: Vec<Tree> = gather(&filed).into_iter().map(without_loops).collect();
            check_on(kind, graph, roots, &encode(&trees))
        }
        other => other,
    }
}

/// A weightless edge joins nothing to the check.
fn joins_nothing(kind: Kind, graph: &Graph, roots: &[usize], cover: &[u8]) -> Result<u64, u16> {
    let said = check_on(kind, graph, roots, cover);
    let is_weightless = |entry: &(usize, usize)| graph.edges[entry.1].weight == 0;
    match said {
        Ok(_) | Err(35) if decode(cover)?.entries.iter().any(is_weightless) => Err(34),
        said => said,
    }
}

/// A wrong reading: what is wrong with it, and of how many trials, best limits and checks what is printed must show it; 0
/// stands for none at all.
type Wrong = (&'static str, Reading, [usize; 3]);

const SOME: [usize; 3] = [10, 10, 0];

const WRONG: [Wrong; 22] = [
    ("16 for weight 0", Reading { graph: refused_with_16, ..RIGHT }, [10, 10, 10]),
    ("0 adjusted to 1", Reading { graph: adjusted_to_1, ..RIGHT }, [10, 10, 10]),
    (
        "0 counted as 1",
        Reading { graph: |record| Ok(with_0_as(&record.brought().graph()?, 1)), ..RIGHT },
        [10, 10, 10],
    ),
    ("weightless edges dropped at 0", Reading { run: dropped_at_0, ..RIGHT }, SOME),
    ("split at threshold 0", Reading { run: split_at_0, ..RIGHT }, SOME),
    (
        "lone vertices not counted",
        Reading {
            run: |kind, graph, k, limit| needing(kind, graph, k, limit, |m| u64::from(m > 0)),
            ..RIGHT
        },
        SOME,
    ),
    (
        "no tree needed at 0",
        Reading { run: |kind, graph, k, limit| needing(kind, graph, k, limit, |_| 0), ..RIGHT },
        SOME,
    ),
    (
        "one tree more for each weightless edge",
        Reading {
            run: |kind, graph, k, limit| needing(kind, graph, k, limit, |m| 1 + m as u64),
            ..RIGHT
        },
        SOME,
    ),
    ("leftovers of no weight left out", Reading { run: weightless_left_out, ..RIGHT }, [10, 5, 0]),
    (
        "leftovers of no weight left out at roots",
        Reading { run: weightless_left_out_at_roots, ..RIGHT },
        SOME,
    ),
    ("a path that ends at any vertex of distance 0", Reading { run: to_any_at_0, ..RIGHT }, SOME),
    ("a walk to a part that goes on and back", Reading { run: there_and_back, ..RIGHT }, [1, 1, 0]),
    ("weightless edges not crossed to a part", Reading { run: not_crossed, ..RIGHT }, SOME),
    ("kept between roots", Reading { run: kept_between_roots, ..RIGHT }, SOME),
    ("filed with loops", Reading { run: filed_with_loops, ..RIGHT }, SOME),
    (
        "bare trees at 0",
        Reading {
            run: |kind, graph, k, limit| {
                let bare = |tree: &Tree| Tree::new(tree.start, vec![]);
                let outcome = run(kind, graph, k, limit);
                if limit == 0 {
                    changed(outcome, bare)
                } else {
                    outcome
                }
            },
            ..RIGHT
        },
        SOME,
    ),
    (
        "limit 0 taken for 1",
        Reading { run: |kind, graph, k, limit| run(kind, graph, k, limit.max(1)), ..RIGHT },
        SOME,
    ),
    ("0 not tried", Reading { tries_0: false, ..RIGHT }, [0, 10, 0]),
    (
        "no cover where only weightless edges join",
        Reading {
            exists: |kind, graph, k| {
                let heavy = graph.edges.iter().copied().filter(|edge| edge.weight > 0).collect();
                cover_exists(kind, &Graph { n: graph.n, edges: heavy }, k)
            },
            ..RIGHT
        },
        [0, 10, 0],
    ),
    (
        "no cover where the sum is 0",
        Reading {
            exists: |kind, graph, k| graph.total() > 0 && cover_exists(kind, graph, k),
            ..RIGHT
        },
        [0, 10, 0],
    ),
    ("weightless loops passed by the check", Reading { check: loops_passed, ..RIGHT }, [0, 0, 10]),
    ("weightless edges not joined", Reading { check: joins_nothing, ..RIGHT }, [0, 0, 10]),
];

/// 0 for a trial, 1 for a search, 2 for a check.
fn place(record: &Record) -> usize {
    match record.asked {
        Asked::Trial { .. } => 0,
        Asked::Best { .. } | Asked::Within { .. } => 1,
        Asked::Check { .. } => 2,
    }
}

#[test]
fn a_wrong_reading_would_show() {
    let has_gates = |record: &&Record| {
        let is_weightless = |edge: &Edge| edge.weight == 0;
        read(&record.sheet).is_ok_and(|graph| graph.edges.iter().any(is_weightless))
    };
    let small = made_records().iter().filter(|record| record.sheet.len() < 400);
    let gated: Vec<&Record> = small.filter(has_gates).collect();
    assert!(!gated.iter().any(|record| RIGHT.shows(record) != (false, false)));
    for (name, reading, least) in WRONG {
        let (mut judged, mut printed) = ([0; 3], [0; 3]);
        for record in &gated {
            let (is_wrong, is_printed) = reading.shows(record);
            judged[place(record)] += usize::from(is_wrong);
            printed[place(record)] += usize::from(is_printed);
        }
        let is_enough = |i| printed[i] >= least[i] && (least[i] > 0 || judged[i] == 0);
        assert!((0..3).all(is_enough), "{name}: {printed:?} printed, {judged:?} judged");
    }
}
