//! Trials and best limits against a search of every cover, on small random graphs.

use crate::common::{buffer, filing, is_too_low, BOTH};
use reference::best::best;
use reference::check::check;
use reference::cover::filed_length;
use reference::graph::Graph;
use reference::judge::{self, Reply};
use reference::optimum::optimum;
use reference::question::{Answer, Kind};
use reference::random::Random;
use reference::trial::trial;

const GRAPHS: usize = 2_700;

/// A way to draw a graph with so many vertices and edges, and weights up to a most.
type Draw = fn(&mut Random, usize, usize, usize) -> Graph;

/// A small graph: up to 6 vertices, up to 8 edges, light or mixed weights.
fn small_graph(random: &mut Random, draw: Draw) -> Graph {
    let (n, m) = (random.between(1, 6), random.between(0, 8));
    let most = [1, 3, 9][random.below(3)];
    draw(random, n, m, most)
}

/// How often each answer was met, so that no test passes on nothing.
#[derive(Default, Debug)]
struct Met {
    cover: usize,
    stop: usize,
    parts: usize,
    needs: usize,
    no_cover: usize,
}

impl Met {
    fn note(&mut self, answer: &Answer) {
        match answer {
            Answer::Cover { .. } => self.cover += 1,
            Answer::Stop(_) => self.stop += 1,
            Answer::Parts { .. } => self.parts += 1,
            Answer::Needs(_) => self.needs += 1,
            Answer::NoCover => self.no_cover += 1,
            Answer::Refused(number) => panic!("refused {number}"),
        }
    }
}

/// Runs one test on so many small graphs, each kind and tree count, with the optimum.
fn on_small_graphs(
    (seed, graphs, draw): (u64, usize, Draw),
    mut test: impl FnMut(Kind, &Graph, u64, Option<u64>),
) {
    let mut random = Random::new(seed);
    for _ in 0..graphs {
        let graph = small_graph(&mut random, draw);
        for kind in BOTH {
            let most = if kind == Kind::Rooted { graph.n.min(3) } else { 3 };
            for k in 1..=most {
                test(kind, &graph, k as u64, optimum(kind, &graph, k));
            }
        }
    }
}

/// The written cover passes the check with the answer's heaviest weight.
fn assert_cover(kind: Kind, sheet: &[u8], k: u64, lent: &[u8], heaviest: u64) {
    let length = filed_length(lent).expect("four bytes");
    assert_eq!(check(kind, sheet, k, &lent[..length]), Ok(heaviest), "{sheet:?}");
}

/// Asks for a trial at every limit of drawn graphs, and gives how often each answer was met.
fn at_every_limit(drawn: (u64, usize, Draw)) -> Met {
    let mut met = Met::default();
    let before = buffer();
    let mut lent = before.clone();
    on_small_graphs(drawn, |kind, graph, k, least| {
        let sheet = graph.to_sheet();
        for limit in 0..=graph.total() + 1 {
            lent[..600].copy_from_slice(&before[..600]);
            let answer = trial(kind, &sheet, k, limit, &mut lent);
            met.note(&answer);
            if is_too_low(&answer) {
                assert!(least.is_none_or(|w| w > limit), "{kind:?} k {k} {limit} {graph:?}");
            }
            if let Answer::Cover { limit: named, heaviest } = answer {
                assert_eq!(named, limit);
                assert!(heaviest <= 4 * limit, "{kind:?} k {k} {limit} {graph:?}");
                assert!(least.is_some_and(|w| w <= heaviest));
                assert_cover(kind, &sheet, k, &lent, heaviest);
            }
            let reply = Reply { answer: &answer, before: &before, after: &lent };
            let judged = judge::trial(kind, &sheet, k, limit, reply);
            assert_eq!(judged, Ok(()), "{kind:?} k {k} {limit} {graph:?}");
        }
    });
    met
}

#[test]
fn trials_at_every_limit() {
    let met = at_every_limit((21, GRAPHS, Random::any_graph));
    let enough = met.cover.min(met.stop).min(met.parts).min(met.needs);
    assert!(enough > 900 && met.no_cover == 0, "{met:?}");
}

#[test]
fn trials_with_weightless_edges() {
    let met = at_every_limit((24, 2_000, Random::gated_graph));
    let enough = met.cover.min(met.stop).min(met.parts).min(met.needs);
    assert!(enough > 100 && met.no_cover == 0, "{met:?}");
}

/// Asks for the best limits of drawn graphs, and gives how often each answer was met.
fn at_best_limits(drawn: (u64, usize, Draw)) -> Met {
    let mut met = Met::default();
    let before = buffer();
    let mut lent = before.clone();
    on_small_graphs(drawn, |kind, graph, k, least| {
        let sheet = graph.to_sheet();
        lent[..600].copy_from_slice(&before[..600]);
        let answer = best(kind, &sheet, k, &mut lent);
        met.note(&answer);
        match (&answer, least) {
            (Answer::NoCover, None) => {}
            (&Answer::Cover { limit, heaviest }, Some(least)) => {
                assert!(heaviest <= 4 * least, "{kind:?} k {k} {graph:?}");
                assert!(limit <= least && least <= heaviest, "{kind:?} k {k} {graph:?}");
                assert_cover(kind, &sheet, k, &lent, heaviest);
                assert_low_below(kind, &sheet, k, limit);
            }
            _ => panic!("{answer:?} with optimum {least:?}: {kind:?} k {k} {graph:?}"),
        }
        let reply = Reply { answer: &answer, before: &before, after: &lent };
        assert_eq!(judge::best(kind, &sheet, k, reply), Ok(()), "{kind:?} k {k} {graph:?}");
    });
    met
}

#[test]
fn best_limits() {
    let met = at_best_limits((22, GRAPHS, Random::any_graph));
    assert!(met.cover > 2000 && met.no_cover > 2000, "{met:?}");
}

#[test]
fn best_limits_with_weightless_edges() {
    let met = at_best_limits((25, 3_000, Random::gated_graph));
    assert!(met.cover > 2000 && met.no_cover > 2000, "{met:?}");
}

/// The limit is accepted and the one below it is not.
fn assert_low_below(kind: Kind, sheet: &[u8], k: u64, limit: u64) {
    let mut lent = buffer();
    assert!(matches!(trial(kind, sheet, k, limit, &mut lent), Answer::Cover { .. }));
    if limit > 0 {
        assert!(is_too_low(&trial(kind, sheet, k, limit - 1, &mut lent)));
    }
}

/// The least heaviest weight that the check grants among all possible filings, one by one.
fn least_by_filing(kind: Kind, graph: &Graph, k: usize) -> Option<u64> {
    let sheet = graph.to_sheet();
    let sets = 1usize << graph.edges.len();
    let options = graph.n * sets;
    let tree_counts = if kind == Kind::Rooted { k..=k } else { 1..=k };
    let mut least = None;
    for trees in tree_counts {
        for code in 0..options.pow(trees as u32) {
            let choice = |j: usize| code / options.pow(j as u32) % options;
            let starts: Vec<usize> = (0..trees).map(|j| choice(j) / sets).collect();
            let has = |j: usize, e: usize| ((choice(j) % sets) >> e) & 1 == 1;
            let pairs = (0..trees).flat_map(|j| (0..graph.edges.len()).map(move |e| (j, e)));
            let entries: Vec<(usize, usize)> = pairs.filter(|&(j, e)| has(j, e)).collect();
            if let Ok(weight) = check(kind, &sheet, k as u64, &filing(&starts, &entries)) {
                least = Some(least.map_or(weight, |known: u64| known.min(weight)));
            }
        }
    }
    least
}

#[test]
fn the_optimum_is_the_least_of_all_filed_covers() {
    let mut random = Random::new(23);
    for _ in 0..120 {
        let (n, m) = (random.between(1, 4), random.between(0, 4));
        let graph = random.any_graph(n, m, 5);
        for kind in BOTH {
            for k in 1..=n.min(2) {
                let least = least_by_filing(kind, &graph, k);
                assert_eq!(optimum(kind, &graph, k), least, "{kind:?} k {k} {graph:?}");
            }
        }
    }
}
