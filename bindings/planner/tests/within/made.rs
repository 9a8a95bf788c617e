//! Made sheets with every number of trials: against the best limit, and against anybody's covers and walks.

use super::{after, followed, plain, values};
use crate::common::call::{call, Asked, Got, Question};
use planner::BUFFER;
use reference::brought::Brought;
use reference::graph::{sheet, Graph};
use reference::made_records::full_size;
use reference::made_shapes::{any_weights, graph, Shape, Weights, POSITIVE, SHAPES};
use reference::made_surfaces::right_list;
use reference::made_vans::any_vans;
use reference::optimum::optimum;
use reference::question::Kind as Crews;
use reference::random::Random;
use reference::rivals::least_longest;
use reference::vans::bytes;

/// A sheet with the lists that may be brought, and a number of trees.
struct Made {
    sheet: Vec<u8>,
    k: usize,
    classes: Option<Vec<u8>>,
    vans: Option<Vec<usize>>,
    list: Vec<u8>,
}

impl Made {
    /// With no list, classes, vans, or both, by turns; up to so many vans.
    fn new(random: &mut Random, graph: &Graph, turn: usize, most: usize) -> Made {
        let classes = (turn % 2 == 1).then(|| right_list(random, graph));
        let vans = (turn % 4 > 1).then(|| {
            let mut vans = any_vans(random, graph.n, turn / 4 % 4);
            vans.truncate(most);
            vans
        });
        let k = vans.as_ref().map_or(random.between(1, graph.n.min(most)), Vec::len);
        let list = bytes(vans.as_deref().unwrap_or_default());
        Made { sheet: graph.to_sheet(), k, classes, vans, list }
    }

    /// The question of a kind with two trials.
    fn question(&self, kind: u32) -> Question<'_> {
        let vans = self.vans.is_some().then_some(&self.list[..]);
        Question { classes: self.classes.as_deref(), vans, ..plain(kind, self.k, 2, &self.sheet) }
    }

    /// The graph by the weights used.
    fn used(&self) -> Graph {
        let (sheet, classes) = (&self.sheet, self.classes.as_deref());
        Brought { sheet, classes, vans: None }.graph().expect("a right sheet and a right list")
    }

    /// The start of each tree; without roots only their number counts.
    fn crews(&self) -> Vec<usize> {
        self.vans.clone().unwrap_or((0..self.k).collect())
    }
}

/// What comes of every number of trials from 2 to 33. The limit never rises, the floor never falls, one trial more is made
/// until the search is at its end; from there on, and with 33 always, all is as of the best limit, to the byte.
fn every_number(random: &mut Random, question: &Question) -> Vec<Got> {
    let seed = random.next_number();
    let asked = Asked::Best { room: BUFFER };
    let best = call(seed, &Question { asked, ..*question }, question.general());
    let mut all: Vec<Got> = vec![];
    for trials in 2..=33 {
        let asked = after(question, trials);
        let got = call(seed, &asked, asked.general());
        let last = all.last().filter(|last| last.case == 5);
        if last.is_some() || all.is_empty() {
            assert_eq!(followed(random, &asked), got.case);
        } else {
            assert!(all.last().is_some_and(|last| *last == got), "trials {trials} {question:?}");
        }
        if got.case != 5 {
            assert_eq!((got.case, &got.values.1[..3]), (best.case, &best.values.1[..3]));
            assert!(got.buffer == best.buffer, "trials {trials} {question:?}");
        }
        if let (Some(last), Some(now)) = (last.and_then(values), values(&got)) {
            assert!(now[0] <= last[0] && last[4] <= now[4] && now[3] == last[3] + 1);
        }
        all.push(got);
    }
    assert_ne!(all[31].case, 5, "{question:?}");
    all
}

/// Sheets of every shape, with lists and without.
#[test]
fn made_sheets_for_every_number_of_trials() {
    let mut random = Random::new(75);
    let (mut met, mut risen) = ([0; 6], 0);
    for (turn, &shape) in SHAPES.iter().cycle().take(160).enumerate() {
        let n = random.between(2, if turn % 8 == 0 { 30 } else { 9 });
        let weights = any_weights(&mut random, &POSITIVE);
        let graph = graph(&mut random, shape, n, n.min(3), weights);
        let made = Made::new(&mut random, &graph, turn / 10, 6);
        for kind in [0, 1] {
            let all = every_number(&mut random, &made.question(kind));
            all.iter().for_each(|got| met[got.case as usize] += 1);
            let weights: Vec<u64> = all.iter().filter_map(values).map(|said| said[1]).collect();
            risen += usize::from(weights.windows(2).any(|pair| pair[0] < pair[1]));
        }
    }
    assert!([0, 4, 5].iter().all(|&case| met[case] > 300) && risen > 0, "{met:?} {risen}");
}

/// Nobody's cover has its heaviest tree below the floor. At the end of the search ours weighs at most four times anybody's,
/// and twice it, the longest walk, is at most eight times the longest of anybody's walks.
#[test]
fn the_bounds_against_anybody() {
    let mut random = Random::new(76);
    let mut met = [0; 6];
    for turn in 0..240 {
        let (n, m) = (random.between(1, 5), random.between(0, 7));
        let graph = random.any_graph(n, m, [3, 9, 200][turn % 3]);
        let made = Made::new(&mut random, &graph, turn, 4);
        for (kind, crews) in [(0, Crews::Rooted), (1, Crews::Unrooted)] {
            let least = optimum(crews, &made.used(), made.crews());
            let walks = least_longest(crews, &made.used(), made.crews());
            for got in every_number(&mut random, &made.question(kind)) {
                met[got.case as usize] += 1;
                let Some([_, heaviest, _, _, floor, spent]) = values(&got) else {
                    assert_eq!((got.case, least, walks), (4, None, None));
                    continue;
                };
                let (least, walks) = (least.expect("a cover"), walks.expect("walks"));
                assert!(floor <= least && least <= heaviest, "{:?}", made.used());
                assert!(spent == 1 || heaviest <= 4 * least && 2 * heaviest <= 8 * walks);
            }
        }
    }
    assert!([0, 4, 5].iter().all(|&case| met[case] > 300), "{met:?}");
}

/// Of a spent reply those bounds say nothing: nine vans at the middle of a star come by with an edge each, and five trees on a
/// path of ten vertices too, but after two trials one tree has all.
#[test]
fn spent_replies_beyond_the_bounds() {
    let mut random = Random::new(77);
    let star: Vec<_> = (1..10).map(|v| (0, v, 1)).collect();
    let path: Vec<_> = (1..10).map(|v| (v - 1, v, 1)).collect();
    let (star, path, vans) = (sheet(10, &star), sheet(10, &path), bytes(&[0; 9]));
    let manned = Question { vans: Some(&vans), ..plain(0, 9, 2, &star) };
    for (question, trees) in [(manned, 9), (plain(1, 5, 2, &path), 1)] {
        let all = every_number(&mut random, &question);
        assert_eq!(values(&all[0]), Some([9, 9, trees, 2, 1, 1]));
        let [limit, heaviest, ..] = values(&all[31]).expect("a cover");
        assert!(limit == 1 && heaviest <= 4, "{question:?}");
    }
}

/// 256 vertices and 2,048 edges, with lists and without: the highest weights, weightless edges, light ones.
#[test]
fn the_largest_sheets() {
    let mut random = Random::new(78);
    let classes: Vec<u8> = (0..2_048).map(|e| [10, 20, 40, 0][e % 4]).collect();
    let vans = bytes(&(0..32).map(|j| (255 - 8 * j) / 2 * 2).collect::<Vec<_>>());
    for (weights, shape) in [
        (Weights::Between(1_000_000, 1_000_000), Shape::Grid),
        (Weights::Either(0, 500_000), Shape::Far),
        (Weights::Between(1, 9), Shape::Connected),
    ] {
        let sheet = full_size(&mut random, shape, weights).to_sheet();
        let listed = weights != Weights::Between(1_000_000, 1_000_000);
        let classes = listed.then_some(&classes[..]);
        for (kind, k) in [(0, 1), (0, 32), (1, 1), (1, 32)] {
            let vans = (k == 32).then_some(&vans[..]);
            let question = Question { classes, vans, ..plain(kind, k, 2, &sheet) };
            for trials in [2, 3, 12, 33] {
                let due = if trials == 33 { 0 } else { 5 };
                assert_eq!(followed(&mut random, &after(&question, trials)), due, "{shape:?}");
            }
        }
    }
}

/// Two vertices and 2,048 edges, all but one of weight 1,000,000: 32 trials are spent, and all 33 are made.
#[test]
fn the_longest_search() {
    let mut random = Random::new(79);
    let weight = |e| if e == 2_000 { 777_720 } else { 1_000_000 };
    let edges: Vec<_> = (0..2_048).map(|e| (0, 1, weight(e))).collect();
    let sheet = sheet(2, &edges);
    for kind in [0, 1] {
        let all = every_number(&mut random, &plain(kind, 1, 2, &sheet));
        assert!(all[..31].iter().all(|got| got.case == 5), "kind {kind}");
        let [limit, heaviest, trees, trials, floor, spent] = values(&all[31]).expect("a cover");
        assert_eq!((heaviest, trees, trials, spent), (777_720, 1, 33, 0), "kind {kind}");
        assert_eq!(limit, floor);
    }
}
