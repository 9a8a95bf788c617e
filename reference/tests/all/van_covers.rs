//! Questions with a list of vans against a search of every cover by these vans, and of everybody's closed walks from them,
//! on small random graphs with and without weightless edges and classes.

use crate::common::surfaces::graph_due;
use crate::common::vans::{any_vans, list};
use crate::common::{buffer, filing, is_too_low};
use reference::best::best_with;
use reference::brought::Brought;
use reference::check::{check_with, is_tree};
use reference::cover::{decode, encode, filed_length, Tree};
use reference::graph::Graph;
use reference::judge::{self, Reply};
use reference::made_surfaces::BORDERS;
use reference::optimum::optimum;
use reference::question::{Answer, Kind};
use reference::random::Random;
use reference::rivals::least_longest;
use reference::trial::trial_with;
use reference::walk::walk_with;

/// A sheet with a list of vans, perhaps one of classes, and the graph of the weights due.
struct Listed {
    sheet: Vec<u8>,
    classes: Option<Vec<u8>>,
    vans: Vec<usize>,
    bytes: Vec<u8>,
    due: Graph,
}

impl Listed {
    /// Up to so many vertices, edges and vans, few of them or many; about half of the graphs have weightless edges, half have
    /// a tree under their edges and half have classes.
    fn new(random: &mut Random, (n, m, k): (usize, usize, usize)) -> Listed {
        let (n, m) = (random.between(1, n), random.between(0, m));
        let most = [1, 3, 9][random.below(3)];
        let mut graph = match random.below(2) {
            0 => random.graph(n, m, most),
            _ => random.gated_graph(n, m, most),
        };
        if random.below(2) == 0 {
            for (v, edge) in (1..n).zip(&mut graph.edges) {
                (edge.a, edge.b) = (random.below(v), v);
            }
        }
        let most_vans = [k, k.min(3)][random.below(2)];
        let vans = any_vans(random, n, most_vans);
        let class = |_| BORDERS[random.below(BORDERS.len())];
        let classes: Vec<u8> = graph.edges.iter().map(class).collect();
        let is_plain = random.below(2) == 0;
        let due = if is_plain { graph.clone() } else { graph_due(&graph, &classes) };
        let classes = (!is_plain).then_some(classes);
        Listed { sheet: graph.to_sheet(), classes, bytes: list(&vans), vans, due }
    }

    fn brought(&self) -> Brought<'_> {
        let (classes, vans) = (self.classes.as_deref(), Some(&self.bytes[..]));
        Brought { sheet: &self.sheet, classes, vans }
    }

    fn k(&self) -> u64 {
        self.vans.len() as u64
    }

    fn has_repeats(&self) -> bool {
        (1..self.vans.len()).any(|j| self.vans[..j].contains(&self.vans[j]))
    }
}

/// The cover written to a lent buffer.
fn written(lent: &[u8]) -> &[u8] {
    &lent[..filed_length(lent).expect("four bytes")]
}

/// Asserts that the bytes are a cover by these vans, with this heaviest weight.
fn assert_heaviest(listed: &Listed, cover: &[u8], heaviest: u64) {
    let said = check_with(Kind::Rooted, listed.brought(), listed.k(), cover);
    assert_eq!(said, Ok(heaviest), "{:?} {:?}", listed.vans, listed.due);
    assert_eq!(cover[4..4 + listed.bytes.len()], listed.bytes);
}

/// An accepted cover is within four times the limit, and "too low" is true of every cover by these vans.
#[test]
fn trials_at_every_limit() {
    let mut random = Random::new(112);
    let (before, mut met) = (buffer(), [0; 4]);
    let mut lent = before.clone();
    for _ in 0..30_000 {
        let listed = Listed::new(&mut random, (6, 8, 8));
        let least = optimum(Kind::Rooted, &listed.due, &listed.vans);
        for limit in 0..=listed.due.total() + 1 {
            lent[..600].copy_from_slice(&before[..600]);
            let answer = trial_with(Kind::Rooted, listed.brought(), listed.k(), limit, &mut lent);
            let asked = (limit, &listed.vans, &listed.due);
            match answer {
                Answer::Cover { limit: named, heaviest } => {
                    assert!(named == limit && heaviest <= 4 * limit, "{asked:?}");
                    assert!(least.is_some_and(|least| least <= heaviest), "{asked:?}");
                    assert_heaviest(&listed, written(&lent), heaviest);
                    met[0] += 1;
                }
                Answer::Stop(_) => met[1] += 1,
                Answer::Parts { parts, roots } => {
                    assert!(roots < parts && limit > 0, "{asked:?}");
                    assert_eq!(roots, vans_near(&listed, limit, written(&lent)), "{asked:?}");
                    met[2] += 1;
                }
                _ => panic!("{answer:?} {asked:?}"),
            }
            let unjoined = lowest_unjoined(&listed, limit);
            assert_eq!(unjoined.map(Answer::Stop), stop_of(&answer), "{asked:?}");
            if is_too_low(&answer) {
                assert!(least.is_none_or(|least| least > limit), "{asked:?}");
            }
            let reply = Reply { answer: &answer, before: &before, after: &lent };
            let word = judge::trial_with(Kind::Rooted, listed.brought(), listed.k(), limit, reply);
            assert_eq!(word, Ok(()), "{asked:?}");
        }
        met[3] += usize::from(listed.has_repeats());
    }
    assert!(met.iter().all(|&count| count > 2_000), "{met:?}");
}

/// The answer where it names a stop.
fn stop_of(answer: &Answer) -> Option<Answer> {
    matches!(answer, Answer::Stop(_)).then(|| answer.clone())
}

/// The lowest vertex to which edges not above the limit lead from no van, found by going on until nothing is added.
fn lowest_unjoined(listed: &Listed, limit: u64) -> Option<usize> {
    let mut joined: Vec<bool> = (0..listed.due.n).map(|v| listed.vans.contains(&v)).collect();
    for _ in 0..listed.due.n {
        for edge in listed.due.edges.iter().filter(|edge| edge.weight <= limit) {
            let is_joined = joined[edge.a] || joined[edge.b];
            (joined[edge.a], joined[edge.b]) = (is_joined, is_joined);
        }
    }
    joined.iter().position(|&is| !is)
}

/// How many vans are within the limit of an end of any edge of the trees written, by the distances between all vertices.
fn vans_near(listed: &Listed, limit: u64, trees: &[u8]) -> usize {
    let Graph { n, edges } = &listed.due;
    let mut apart = vec![vec![u64::MAX / 4; *n]; *n];
    (0..*n).for_each(|v| apart[v][v] = 0);
    for _ in 0..*n {
        for (from, edge) in (0..*n).flat_map(|v| edges.iter().map(move |edge| (v, edge))) {
            let [a, b] = [apart[from][edge.a], apart[from][edge.b]];
            apart[from][edge.a] = a.min(b + edge.weight);
            apart[from][edge.b] = b.min(a + edge.weight);
        }
    }
    let entries = decode(trees).expect("cover bytes").entries;
    let ends: Vec<usize> = entries.iter().flat_map(|&(_, e)| [edges[e].a, edges[e].b]).collect();
    let is_near = |van: &&usize| ends.iter().any(|&end| apart[**van][end] <= limit);
    listed.vans.iter().filter(is_near).count()
}

/// No cover exactly where none exists, and otherwise at most four times the least, at an accepted limit above a too low one.
#[test]
fn best_limits() {
    let mut random = Random::new(113);
    // Covers, no cover, more vans than vertices, and optima that differ from that of a van at each vertex of the list.
    let (before, mut met) = (buffer(), [0; 4]);
    let mut lent = before.clone();
    for _ in 0..30_000 {
        let listed = Listed::new(&mut random, (6, 8, 8));
        let least = optimum(Kind::Rooted, &listed.due, &listed.vans);
        lent[..600].copy_from_slice(&before[..600]);
        let answer = best_with(Kind::Rooted, listed.brought(), listed.k(), &mut lent);
        let asked = (&listed.vans, &listed.due);
        match (&answer, least) {
            (Answer::NoCover, None) => met[0] += 1,
            (&Answer::Cover { limit, heaviest }, Some(least)) => {
                assert!(limit <= least && least <= heaviest, "{asked:?}");
                assert!(heaviest <= 4 * least, "{heaviest} {least} {asked:?}");
                assert_heaviest(&listed, written(&lent), heaviest);
                assert_low_below(&listed, limit);
                met[1] += 1;
            }
            _ => panic!("{answer:?} with optimum {least:?}: {asked:?}"),
        }
        let reply = Reply { answer: &answer, before: &before, after: &lent };
        let word = judge::best_with(Kind::Rooted, listed.brought(), listed.k(), reply);
        assert_eq!(word, Ok(()), "{asked:?}");
        met[2] += usize::from(listed.vans.len() > listed.due.n);
        let mut stops = listed.vans.clone();
        stops.sort_unstable();
        stops.dedup();
        met[3] += usize::from(optimum(Kind::Rooted, &listed.due, &stops) != least);
    }
    assert!(met.iter().all(|&count| count > 1_000), "{met:?}");
}

/// The limit is accepted and the one below it is not.
fn assert_low_below(listed: &Listed, limit: u64) {
    let at = |limit| trial_with(Kind::Rooted, listed.brought(), listed.k(), limit, &mut buffer());
    assert!(matches!(at(limit), Answer::Cover { .. }));
    assert!(limit == 0 || is_too_low(&at(limit - 1)));
}

/// Our longest walk at the best limit is at most eight times the least longest of anybody's closed walks from these vans.
#[test]
fn our_longest_walk_is_within_eight_times() {
    let mut random = Random::new(114);
    let mut met = [0; 2];
    for _ in 0..20_000 {
        let listed = Listed::new(&mut random, (6, 8, 6));
        let least = least_longest(Kind::Rooted, &listed.due, &listed.vans);
        let mut lent = buffer();
        let answer = best_with(Kind::Rooted, listed.brought(), listed.k(), &mut lent);
        met[usize::from(least.is_some())] += 1;
        let Some(least) = least else {
            assert_eq!(answer, Answer::NoCover, "{:?} {:?}", listed.vans, listed.due);
            continue;
        };
        let cover = written(&lent).to_vec();
        let length = |tree: usize| {
            let said =
                walk_with(Kind::Rooted, listed.brought(), listed.k(), &cover, tree, &mut lent);
            assert_eq!(lent[..2], listed.bytes[2 * tree..2 * tree + 2]);
            said.expect("a walk").1
        };
        let ours = (0..listed.vans.len()).map(length).max().expect("a tree");
        assert!(least <= ours && ours <= 8 * least, "{ours} {least} {:?}", listed.due);
    }
    assert!(met[0].min(met[1]) > 1_000, "{met:?}");
}

/// Of all filings of k trees on tiny graphs, whatever their starts, the check says yes exactly to covers by the list; the
/// least heaviest among them is the optimum.
#[test]
fn the_check_says_yes_exactly_to_covers_by_the_list() {
    let mut random = Random::new(115);
    let mut met = [0usize; 3];
    for _ in 0..500 {
        let mut listed = Listed::new(&mut random, (4, 4, 2));
        if random.below(8) == 0 && listed.due.n < 3 && listed.due.edges.len() < 3 {
            listed.vans.push(0);
            listed.bytes = list(&listed.vans);
        }
        let (n, m, k) = (listed.due.n, listed.due.edges.len(), listed.vans.len());
        let (sets, mut least) = (1usize << m, None);
        let options = n * sets;
        for code in 0..options.pow(k as u32) {
            let choice = |j: usize| code / options.pow(j as u32) % options;
            let edges = |j: usize| (0..m).filter(|e| ((choice(j) % sets) >> e) & 1 == 1).collect();
            let trees: Vec<Tree> =
                (0..k).map(|j| Tree { start: choice(j) / sets, edges: edges(j) }).collect();
            let due = due_of_check(&listed, &trees);
            let said = check_with(Kind::Rooted, listed.brought(), listed.k(), &encode(&trees));
            assert_eq!(said, due, "{trees:?} {:?} {:?}", listed.vans, listed.due);
            if let Ok(weight) = said {
                least = Some(least.map_or(weight, |known: u64| known.min(weight)));
            }
            met[usize::from(said.is_ok())] += 1;
        }
        assert_eq!(optimum(Kind::Rooted, &listed.due, &listed.vans), least, "{:?}", listed.due);
        let starts: Vec<usize> = listed.vans.iter().take(k - 1).copied().collect();
        for starts in [starts, [&listed.vans[..], &[0]].concat()] {
            let cover = filing(&starts, &[]);
            let said = check_with(Kind::Rooted, listed.brought(), listed.k(), &cover);
            assert_eq!(said, Err(32));
            met[2] += 1;
        }
    }
    assert!(met[0] > 100_000 && met[1] > 1_000 && met[2] == 1_000, "{met:?}");
}

/// What is due to k trees filed in order, by the words of the rules.
fn due_of_check(listed: &Listed, trees: &[Tree]) -> Result<u64, u16> {
    let graph = &listed.due;
    if (0..trees.len()).any(|j| trees[j].start != listed.vans[j]) {
        return Err(32);
    }
    if trees.iter().any(|tree| !is_tree(graph, tree)) {
        return Err(34);
    }
    let covered = |v: usize| trees.iter().any(|tree| tree.vertices(graph).contains(&v));
    if !(0..graph.n).all(covered) {
        return Err(35);
    }
    let weights = trees.iter().map(|tree| graph.weight(&tree.edges));
    Ok(weights.max().expect("a tree"))
}
