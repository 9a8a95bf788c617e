//! Questions with a list of classes against a search of every cover, and of everybody's closed walks, under the weights
//! due, on small random graphs.

use crate::common::surfaces::{graph_due, weight_due};
use crate::common::{buffer, is_too_low, BOTH};
use reference::best::{best, best_with};
use reference::brought::Brought;
use reference::bytes::two;
use reference::check::check_with;
use reference::cover::filed_length;
use reference::graph::{read, Graph};
use reference::judge::{self, Reply};
use reference::made_surfaces::BORDERS;
use reference::optimum::optimum;
use reference::question::{Answer, Kind};
use reference::random::Random;
use reference::rivals::least_longest;
use reference::trial::trial_with;
use reference::walk::{walk, walk_with};

/// A sheet with a list of classes, and the graph of the weights due.
struct Listed {
    sheet: Vec<u8>,
    classes: Vec<u8>,
    due: Graph,
}

impl Listed {
    /// Up to 6 vertices and 8 edges, with weights up to one of those given.
    fn new(random: &mut Random, mosts: &[usize]) -> Listed {
        let (n, m) = (random.between(1, 6), random.between(0, 8));
        let most = mosts[random.below(mosts.len())];
        let graph = random.any_graph(n, m, most);
        let class = |_| BORDERS[random.below(BORDERS.len())];
        let classes: Vec<u8> = graph.edges.iter().map(class).collect();
        let due = graph_due(&graph, &classes);
        Listed { sheet: graph.to_sheet(), classes, due }
    }

    fn brought(&self) -> Brought<'_> {
        Brought { classes: Some(&self.classes), ..Brought::plain(&self.sheet) }
    }

    /// The weights of a cover's trees, counted entry by entry from the bytes of cover, sheet and list.
    fn recounted(&self, cover: &[u8]) -> Vec<u64> {
        let graph = read(&self.sheet).expect("a right sheet");
        counted(cover, |e| weight_due(graph.edges[e].weight, self.classes[e]))
    }

    /// Every kind and number of trees that is asked for.
    fn crews(&self) -> Vec<(Kind, usize)> {
        let most = self.due.n.min(3);
        BOTH.into_iter().flat_map(|kind| (1..=most).map(move |k| (kind, k))).collect()
    }
}

/// The weights of a cover's trees by the weight of each edge, counted entry by entry.
fn counted(cover: &[u8], weight: impl Fn(usize) -> u64) -> Vec<u64> {
    let (t, q) = (two(cover, 0), two(cover, 2));
    let mut weights = vec![0; t];
    for i in 0..q {
        let at = 4 + 2 * t + 2 * i;
        weights[two(cover, at)] += weight(two(cover, at + 2 * q));
    }
    weights
}

/// The cover written to a lent buffer.
fn written(lent: &[u8]) -> &[u8] {
    &lent[..filed_length(lent).expect("four bytes")]
}

/// The limit that a cover was found at.
fn limit_of(answer: &Answer) -> Option<u64> {
    match answer {
        Answer::Cover { limit, .. } => Some(*limit),
        _ => None,
    }
}

/// Asserts that the bytes are a cover by the check, whose heaviest weight is this one and that of a recount.
fn assert_heaviest(listed: &Listed, kind: Kind, k: usize, cover: &[u8], heaviest: u64) {
    let said = check_with(kind, listed.brought(), k as u64, cover);
    assert_eq!(said, Ok(heaviest), "{kind:?} k {k} {:?}", listed.due);
    assert_eq!(listed.recounted(cover).into_iter().max(), Some(heaviest));
}

#[test]
fn trials_at_every_limit() {
    let mut random = Random::new(93);
    let (before, mut met) = (buffer(), [0; 2]);
    let mut lent = before.clone();
    for _ in 0..400 {
        let listed = Listed::new(&mut random, &[1, 3, 9]);
        for (kind, k) in listed.crews() {
            let least = optimum(kind, &listed.due, k);
            for limit in 0..=listed.due.total() + 1 {
                lent[..600].copy_from_slice(&before[..600]);
                let answer = trial_with(kind, listed.brought(), k as u64, limit, &mut lent);
                let asked = (kind, k, limit, &listed.due);
                match answer {
                    Answer::Cover { limit: named, heaviest } => {
                        assert!(named == limit && heaviest <= 4 * limit, "{asked:?}");
                        assert!(least.is_some_and(|least| least <= heaviest), "{asked:?}");
                        assert_heaviest(&listed, kind, k, written(&lent), heaviest);
                    }
                    _ => {
                        assert!(is_too_low(&answer), "{answer:?} {asked:?}");
                        assert!(least.is_none_or(|least| least > limit), "{asked:?}");
                    }
                }
                met[usize::from(is_too_low(&answer))] += 1;
                let reply = Reply { answer: &answer, before: &before, after: &lent };
                let word = judge::trial_with(kind, listed.brought(), k as u64, limit, reply);
                assert_eq!(word, Ok(()), "{asked:?}");
            }
        }
    }
    assert!(met[0].min(met[1]) > 5_000, "{met:?}");
}

#[test]
fn best_limits() {
    let mut random = Random::new(94);
    let (before, mut met) = (buffer(), [0; 3]);
    let mut lent = before.clone();
    for _ in 0..1_200 {
        let listed = Listed::new(&mut random, &[1, 3, 9, 400_000]);
        let plain = read(&listed.sheet).expect("a right sheet");
        for (kind, k) in listed.crews() {
            let least = optimum(kind, &listed.due, k);
            lent[..600].copy_from_slice(&before[..600]);
            let answer = best_with(kind, listed.brought(), k as u64, &mut lent);
            let asked = (kind, k, &listed.due);
            match (&answer, least) {
                (Answer::NoCover, None) => {}
                (&Answer::Cover { limit, heaviest }, Some(least)) => {
                    assert!(limit <= least && least <= heaviest, "{asked:?}");
                    assert!(heaviest <= 4 * least, "{heaviest} {least} {asked:?}");
                    assert_heaviest(&listed, kind, k, written(&lent), heaviest);
                }
                _ => panic!("{answer:?} with optimum {least:?}: {asked:?}"),
            }
            let reply = Reply { answer: &answer, before: &before, after: &lent };
            let word = judge::best_with(kind, listed.brought(), k as u64, reply);
            assert_eq!(word, Ok(()), "{asked:?}");
            met[0] += usize::from(least.is_none());
            met[1] += usize::from(least != optimum(kind, &plain, k));
            // A reply that leaves the list unread is judged wrong wherever it names another limit.
            let mut unlisted = before.clone();
            let other = best(kind, &listed.sheet, k as u64, &mut unlisted);
            if limit_of(&other) != limit_of(&answer) {
                let reply = Reply { answer: &other, before: &before, after: &unlisted };
                assert!(judge::best_with(kind, listed.brought(), k as u64, reply).is_err());
                met[2] += 1;
            }
        }
    }
    assert!(met.iter().all(|&count| count > 1_000), "{met:?}");
}

/// A cover of the weights as given is a cover with any list, and its heaviest weight is that of a recount.
#[test]
fn other_covers_are_checked_by_the_weights_due() {
    let mut random = Random::new(95);
    let (mut differing, mut of_another_tree) = (0, 0);
    for _ in 0..3_000 {
        let listed = Listed::new(&mut random, &[3, 9, 400_000]);
        let graph = read(&listed.sheet).expect("a right sheet");
        for (kind, k) in listed.crews() {
            let mut lent = buffer();
            let answer = best(kind, &listed.sheet, k as u64, &mut lent);
            let Answer::Cover { heaviest: plain, .. } = answer else { continue };
            let weights = listed.recounted(written(&lent));
            let heaviest = weights.iter().copied().max().expect("a tree");
            assert_heaviest(&listed, kind, k, written(&lent), heaviest);
            differing += usize::from(heaviest != plain);
            let given = counted(written(&lent), |e| graph.edges[e].weight);
            let place = |all: &[u64]| all.iter().position(|w| Some(w) == all.iter().max());
            of_another_tree += usize::from(place(&weights) != place(&given));
        }
    }
    assert!(differing > 1_000 && of_another_tree > 50, "{differing} {of_another_tree}");
}

/// The walk of every tree is that of the sheet alone, its length twice the tree's weight due; our longest at the best limit
/// is at most eight times the least longest of anybody's closed walks.
#[test]
fn walks_go_by_the_weights_due() {
    let mut random = Random::new(96);
    let (mut longer, mut compared) = (0, 0);
    for _ in 0..1_000 {
        let listed = Listed::new(&mut random, &[1, 9, 400_000]);
        for (kind, k) in listed.crews() {
            let (asked, mut lent) = (k as u64, buffer());
            let answer = best_with(kind, listed.brought(), asked, &mut lent);
            let Answer::Cover { .. } = answer else { continue };
            let cover = written(&lent).to_vec();
            let weights = listed.recounted(&cover);
            for (tree, weight) in weights.iter().enumerate() {
                let (mut walked, mut plain) = (buffer(), buffer());
                let said = walk_with(kind, listed.brought(), asked, &cover, tree, &mut walked)
                    .expect("a walk");
                let (stops, length) =
                    walk(kind, &listed.sheet, asked, &cover, tree, &mut plain).expect("a walk");
                assert_eq!(said, (stops, 2 * weight), "{kind:?} k {k} {:?}", listed.due);
                assert!(walked == plain, "the stops differ");
                longer += usize::from(said.1 > length);
            }
            let ours = 2 * weights.iter().max().expect("a tree");
            let least = least_longest(kind, &listed.due, k).expect("walks");
            assert!(least <= ours && ours <= 8 * least, "{kind:?} k {k} {:?}", listed.due);
            compared += 1;
        }
    }
    assert!(longer > 1_000 && compared > 1_000, "{longer} {compared}");
}
