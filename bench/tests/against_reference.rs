//! The quick version against `reference/`, an implementation that shares no code with it, with classes and without.

mod held;

use bench::question::BUFFER;
use held::{checked, judged_with};
use reference::brought::Brought;
use reference::districts::{Asked, Record};
use reference::made_filings::filings;
use reference::made_gates::gates;
use reference::made_shapes::{any_weights, graph, POSITIVE, SEARCHED, SHAPES};
use reference::made_surfaces::surfaced;
use reference::made_trials::trials;
use reference::question::Kind;
use reference::random::Random;

/// The same without lists.
fn judged(
    kind: Kind,
    k: usize,
    limit: Option<u64>,
    sheet: &[u8],
    room: usize,
) -> Result<u32, String> {
    judged_with(kind, k, limit, Brought::plain(sheet), room)
}

#[test]
fn made_trials_are_answered_as_the_reference_allows() {
    let mut met = [0; 64];
    for (i, trial) in trials().iter().enumerate() {
        let said = judged(trial.kind, trial.k, Some(trial.limit), &trial.sheet, BUFFER);
        let case = said.unwrap_or_else(|why| panic!("trial {i}: {why}"));
        met[case as usize] += 1;
    }
    for case in [0, 1, 2, 3, 11, 12, 13, 14, 15, 16, 21, 22] {
        assert!(met[case] > 0, "case {case} is not met");
    }
}

/// Questions on graphs of every shape with vertices between two numbers.
fn on_shapes(seed: u64, turns: usize, vertices: (usize, usize), trees: usize) {
    let mut random = Random::new(seed);
    for turn in 0..turns {
        for shape in SHAPES {
            let n = random.between(vertices.0, vertices.1);
            let k = random.between(1, n.min(trees));
            let weights = any_weights(&mut random, &POSITIVE);
            let graph = graph(&mut random, shape, n, k, weights);
            let sheet = graph.to_sheet();
            let sum = graph.total() as usize;
            let limits = [0, 1, sum, random.below(sum + 2), random.below(sum / k + 2)];
            for kind in [Kind::Rooted, Kind::Unrooted] {
                for limit in limits.into_iter().map(|limit| Some(limit as u64)).chain([None]) {
                    let said = judged(kind, k, limit, &sheet, BUFFER + turn % 3);
                    said.unwrap_or_else(|why| {
                        panic!("{shape:?} n {n} k {k} {kind:?} {limit:?}: {why}")
                    });
                }
            }
        }
    }
}

/// Graphs on which accepted limits lie below others that are not, so that a search of another order would show.
#[test]
fn uneven_graphs() {
    for (n, k, edges) in SEARCHED {
        let sheet = reference::graph::sheet(n, edges);
        for kind in [Kind::Rooted, Kind::Unrooted] {
            assert_eq!(judged(kind, k, None, &sheet, BUFFER), Ok(0));
        }
    }
}

#[test]
fn small_graphs() {
    on_shapes(11, 60, (1, 9), 4);
}

#[test]
fn middling_graphs() {
    on_shapes(12, 12, (10, 60), 12);
}

#[test]
fn large_graphs() {
    on_shapes(13, 1, (200, 256), 32);
}

/// The graphs that are measured, at their smaller sizes.
#[test]
fn measured_graphs() {
    for shape in bench::made::SHAPES {
        for size in &bench::made::SIZES[1..] {
            for sheet in [bench::made::sheet(shape, size), bench::made::gated(shape, size)] {
                for kind in [Kind::Rooted, Kind::Unrooted] {
                    let said = judged(kind, size.k, None, &sheet, BUFFER);
                    assert_eq!(said, Ok(0), "{shape:?} {size:?}");
                }
            }
        }
    }
}

#[test]
fn short_buffers_are_refused() {
    let sheet = reference::graph::sheet(4, &[(0, 2, 3), (2, 3, 3), (1, 3, 5)]);
    for kind in [Kind::Rooted, Kind::Unrooted] {
        for room in [0, 100, BUFFER - 1] {
            assert_eq!(judged(kind, 2, Some(4), &sheet, room), Ok(23));
            assert_eq!(judged(kind, 2, None, &sheet, room), Ok(23));
        }
    }
}

#[test]
fn filed_covers_are_checked_as_the_reference_checks_them() {
    for (i, filing) in filings().iter().enumerate() {
        let said = checked(filing.kind, filing.k, Brought::plain(&filing.sheet), &filing.cover);
        said.unwrap_or_else(|why| panic!("filing {i}: {why}"));
    }
}

/// How often each case is met in trials and best limits, and in checks, each of which must be answered as the reference allows.
fn met_in(records: &[Record]) -> [[usize; 64]; 2] {
    let mut met = [[0; 64]; 2];
    for (i, record) in records.iter().enumerate() {
        let (kind, k, brought) = (record.kind, record.k, record.brought());
        let (which, said) = match &record.asked {
            Asked::Trial { limit, room } => (0, judged_with(kind, k, Some(*limit), brought, *room)),
            Asked::Best { room } => (0, judged_with(kind, k, None, brought, *room)),
            Asked::Within { .. } => unreachable!("few_trials.rs has these"),
            Asked::Check { cover } => (1, checked(kind, k, brought, cover)),
        };
        let case = said.unwrap_or_else(|why| panic!("record {i}: {why}"));
        met[which][case as usize] += 1;
    }
    met
}

/// Trials, best limits and checks with weightless edges.
#[test]
fn weightless_edges_are_answered_as_the_reference_allows() {
    let met = met_in(&gates());
    assert!([0, 1, 2, 3].iter().all(|&case| met[0][case] > 0), "{met:?}");
    assert!([0, 34].iter().all(|&case| met[1][case] > 0), "{met:?}");
}

/// Trials, best limits and checks with lists of classes, right and wrong ones.
#[test]
fn records_with_lists_are_answered_as_the_reference_allows() {
    let met = met_in(&surfaced());
    for case in [0, 1, 2, 3, 4, 11, 12, 13, 14, 15, 16, 53, 54, 21, 22, 23] {
        assert!(met[0][case] > 0, "case {case} is not met");
    }
    for case in [0, 11, 12, 13, 14, 15, 16, 53, 54, 21, 31, 32, 33, 34, 35] {
        assert!(met[1][case] > 0, "case {case} of the check is not met");
    }
}

/// The lists that are measured: the adjusted weights are those of a graph that is put without a list.
#[test]
fn measured_lists() {
    for size in &bench::made::SIZES[2..] {
        let (sheet, classes) = bench::made::surfaced(bench::made::Shape::Random, size);
        let brought = Brought { classes: Some(&classes), ..Brought::plain(&sheet) };
        for kind in [Kind::Rooted, Kind::Unrooted] {
            assert_eq!(judged_with(kind, size.k, None, brought, BUFFER), Ok(0), "{size:?}");
        }
        let graph = brought.graph().expect("a right list");
        let heaviest = graph.edges.iter().map(|edge| edge.weight).max();
        assert!(heaviest > Some(500_000), "no class counts: {heaviest:?}");
    }
}
