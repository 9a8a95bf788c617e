//! The records with weightless edges: how much they meet.

use std::collections::{BTreeMap, BTreeSet};

use crate::common::surfaces::{checked, RANGES};
use crate::common::{made_records, BOTH};
use reference::cover::{decode, gather};
use reference::districts::{Asked, Record};
use reference::forest::{components, thin, unrooted};
use reference::graph::{read, Graph};
use reference::judge_districts::own_reply;
use reference::question::Kind;

/// The records with weightless edges, and their graphs as written on the sheet.
fn gated() -> Vec<(&'static Record, Graph)> {
    let graph = |record: &'static Record| Some((record, read(&record.sheet).ok()?));
    let all = made_records().iter().filter_map(graph);
    all.filter(|(_, graph)| !weightless(graph).is_empty()).collect()
}

/// The weightless edges of a graph.
fn weightless(graph: &Graph) -> Vec<usize> {
    (0..graph.edges.len()).filter(|&e| graph.edges[e].weight == 0).collect()
}

/// The name of a record's question.
fn question(record: &Record) -> &'static str {
    match record.asked {
        Asked::Trial { limit: 0, .. } => "trial at 0",
        Asked::Trial { limit: 1, .. } => "trial at 1",
        Asked::Trial { .. } => "trial",
        Asked::Best { .. } => "best",
        Asked::Within { .. } => "within",
        Asked::Check { .. } => "check",
    }
}

#[test]
fn every_question_is_asked_with_and_without_a_list() {
    let mut met: BTreeMap<(&str, bool, bool), usize> = BTreeMap::new();
    for (record, _) in gated() {
        let is_rooted = record.kind == Kind::Rooted;
        *met.entry((question(record), is_rooted, record.classes.is_some())).or_default() += 1;
    }
    for name in ["trial at 0", "trial at 1", "trial", "best", "check"] {
        for (is_rooted, is_listed) in [(true, true), (true, false), (false, true), (false, false)] {
            let count = met.get(&(name, is_rooted, is_listed)).copied().unwrap_or(0);
            let least = if is_listed { 15 } else { 60 };
            assert!(count > least, "{name}, rooted {is_rooted}, list {is_listed} of {met:?}");
        }
    }
    assert!(gated().len() > 2_000, "{}", gated().len());
}

#[test]
fn limit_0_is_accepted_and_not() {
    // For each kind: trials at 0 that are accepted and not, best limits of 0, above 0, and no cover.
    let mut met = [[0; 5]; 2];
    for (record, _) in gated() {
        let place = match (question(record), own_reply(record)) {
            ("trial at 0", Some(reply)) => usize::from(reply.case > 0),
            ("best", Some(reply)) if reply.case == 0 => 2 + usize::from(reply.values[0] > 0),
            ("best", Some(reply)) if reply.case == 4 => 4,
            _ => continue,
        };
        met[record.kind as usize][place] += 1;
    }
    assert!(met.iter().flatten().all(|&count| count >= 3), "{met:?}");
    assert!(met.iter().all(|of_kind| of_kind[..4].iter().all(|&count| count > 40)), "{met:?}");
}

/// As many trees as weightless edges leave components, and one less; with vertices alone and without; up to 32 and 33.
#[test]
fn trees_are_as_many_as_components_and_one_less() {
    let mut met: BTreeSet<(usize, usize, bool)> = BTreeSet::new();
    for (record, _) in gated().iter().filter(|(record, _)| record.kind == Kind::Unrooted) {
        let Ok(graph) = record.brought().graph() else { continue };
        let pieces = components(&unrooted(&graph, 0));
        if question(record) == "trial at 0" && (record.k..=record.k + 1).contains(&pieces.len()) {
            met.insert((pieces.len(), record.k, pieces.iter().any(|piece| piece.len() == 1)));
        }
    }
    for (count, k) in (2..=6).chain([32]).flat_map(|count| [(count, count), (count, count - 1)]) {
        let is_met = [true, false].map(|is_alone| met.contains(&(count, k, is_alone)));
        assert!(is_met[0] || is_met[1], "{count} components, {k} trees: {met:?}");
    }
    assert!(met.contains(&(33, 32, true)), "{met:?}");
}

/// Checks of covers whose trees have weightless edges: yes, and 34 where such edges close a loop.
#[test]
fn covers_with_weightless_edges_are_filed() {
    let (mut yes, mut of_no_weight, mut loops) = ([0; 2], [0; 2], [0; 2]);
    for (record, _) in gated() {
        let (Asked::Check { cover }, Ok(graph)) = (&record.asked, record.brought().graph()) else {
            continue;
        };
        let (Some(said), Ok(filed)) = (checked(record, record.brought()), decode(cover)) else {
            continue;
        };
        let kind = record.kind as usize;
        let is_met = filed.entries.iter().any(|entry| weightless(&graph).contains(&entry.1));
        yes[kind] += usize::from(is_met && said.is_ok());
        of_no_weight[kind] += usize::from(is_met && said == Ok(0));
        let closes = |edges: &[usize]| {
            let own: Vec<usize> =
                weightless(&graph).into_iter().filter(|e| edges.contains(e)).collect();
            thin(&graph, &own).len() < own.len()
        };
        let has_loop = said == Err(34) && gather(&filed).iter().any(|tree| closes(&tree.edges));
        loops[kind] += usize::from(has_loop);
    }
    assert!(yes.iter().all(|&count| count > 60), "{yes:?}");
    assert!(
        of_no_weight.iter().chain(&loops).all(|&count| count >= 5),
        "{of_no_weight:?} {loops:?}"
    );
}

/// Weightless edges of every class that counts otherwise, in every question.
#[test]
fn weightless_edges_of_every_class_are_met() {
    for (low, high, _) in RANGES.into_iter().chain([(60, 255, 100)]) {
        for name in ["trial at 0", "trial at 1", "trial", "best", "check"] {
            let is_met = |(record, graph): &&(&Record, Graph)| {
                let Some(classes) = record.classes.as_deref() else { return false };
                let in_range =
                    |&e: &usize| classes.get(e).is_some_and(|c| (low..=high).contains(c));
                question(record) == name && weightless(graph).iter().any(in_range)
            };
            let count = gated().iter().filter(is_met).count();
            assert!(count >= 3, "classes {low} to {high}, {name}: {count}");
        }
    }
}

#[test]
fn the_largest_graphs_have_weightless_edges() {
    type Lies = fn(usize, usize, usize) -> bool;
    let rows: [(&str, Lies); 3] = [
        ("path", |e, a, b| (a, b) == (e, e + 1)),
        ("star", |e, a, b| (a, b) == (e + 1, 0)),
        ("caterpillar", |e, a, b| (a, b) == if e < 127 { (e, e + 1) } else { (e + 1, e - 127) }),
    ];
    for (name, lies) in rows {
        for kind in BOTH {
            let is_met = |(record, graph): &&(&Record, Graph)| {
                let mut edges = graph.edges.iter().enumerate();
                let is_so = graph.n == 256 && edges.all(|(e, edge)| lies(e, edge.a, edge.b));
                record.kind == kind && is_so
            };
            let met: BTreeSet<&str> =
                gated().iter().filter(is_met).map(|r| question(r.0)).collect();
            assert!(
                ["trial", "best", "check"].iter().all(|due| met.contains(due)),
                "{name} {met:?}"
            );
        }
    }
    for is_all in [true, false] {
        let is_met = |(_, graph): &&(&Record, Graph)| {
            graph.edges.len() == 2_048 && (weightless(graph).len() == 2_048) == is_all
        };
        let count = gated().iter().filter(is_met).count();
        assert!(count >= 2, "all weightless {is_all}: {count}");
    }
}
