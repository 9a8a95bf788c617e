//! Every sentence of request A.6 that claims something of covers: against a search of every cover and of everybody's closed
//! walks, for every number of trials, on small random sheets with and without weightless edges, classes and vans.

use crate::common::within::Put;
use crate::common::{buffer, BOTH};
use reference::check::check_with;
use reference::optimum::optimum;
use reference::question::Kind;
use reference::random::Random;
use reference::rivals::least_longest;
use reference::walk::walk_with;
use reference::within::Within;

/// What a reply with a cover says.
#[derive(Clone, Debug)]
struct Said {
    high: u64,
    heaviest: u64,
    trials: u64,
    floor: u64,
    spent: bool,
    cover: Vec<u8>,
}

/// What is said of every p from 2 on until two more trials than the whole search makes, and of 33; nothing where one of them
/// says "no cover", which then all must say.
fn every_reply(put: &Put) -> Option<Vec<Said>> {
    let mut said = Vec::new();
    let mut none = 0;
    let mut more = 2;
    for p in 2..=33 {
        if more == 0 && p < 33 {
            continue;
        }
        match put.ask(p) {
            (Within::Cover { high, heaviest, trials, floor, spent }, cover) => {
                more -= usize::from(!spent && more > 0);
                said.push(Said { high, heaviest, trials, floor, spent, cover });
            }
            (Within::NoCover, _) => none += 1,
            (refused, _) => panic!("{refused:?}"),
        }
    }
    assert!(none == 0 || said.is_empty(), "{:?}", put.due);
    (none == 0).then_some(said)
}

/// What was met, so that no test passes on nothing.
#[derive(Default, Debug)]
struct Met {
    no_cover: usize,
    limit_0: usize,
    ended: usize,
    spent: usize,
    beyond: usize,
    weightless: [usize; 2],
    classes: [usize; 2],
    vans: [usize; 2],
    kind: [usize; 2],
}

impl Met {
    fn note(&mut self, put: &Put) {
        self.weightless[usize::from(put.due.edges.iter().any(|edge| edge.weight == 0))] += 1;
        self.classes[usize::from(put.classes.is_some())] += 1;
        self.vans[usize::from(put.vans.is_some())] += 1;
        self.kind[usize::from(put.kind == BOTH[0])] += 1;
    }

    /// The least number of those.
    fn least(&self) -> usize {
        let pairs = [self.weightless, self.classes, self.vans, self.kind];
        let counts = [self.no_cover, self.limit_0, self.ended, self.spent, self.beyond];
        pairs.into_iter().flatten().chain(counts).min().expect("a count")
    }
}

/// "No cover" exactly where there is none; nobody's heaviest tree below the floor; ours at most four times high; at most
/// four times the least unless spent. A spent one may be beyond that, so that the sentence is needed.
#[test]
fn replies_against_every_cover() {
    let mut random = Random::new(124);
    let mut met = Met::default();
    for _ in 0..5_000 {
        let put = Put::new(&mut random);
        met.note(&put);
        let least = optimum(put.kind, &put.due, &put.crews);
        let said = every_reply(&put);
        assert_eq!(said.is_none(), least.is_none(), "{:?}", put.due);
        let (Some(said), Some(least)) = (said, least) else {
            met.no_cover += 1;
            continue;
        };
        for said in said {
            assert!(said.floor <= least && least <= said.heaviest, "{least} {said:?}");
            assert!(said.heaviest <= 4 * said.high, "{said:?} {:?}", put.due);
            let checked = check_with(put.kind, put.brought(), put.k(), &said.cover);
            assert_eq!(checked, Ok(said.heaviest), "{said:?} {:?}", put.due);
            let is_beyond = said.heaviest > 4 * least;
            assert!(said.spent || !is_beyond, "{least} {said:?} {:?}", put.due);
            // Limit 0 is accepted exactly where some cover weighs nothing; the floor is 0 then and at least 1 otherwise.
            assert_eq!(said.high == 0, least == 0, "{said:?} {:?}", put.due);
            assert_eq!(said.floor == 0, least == 0, "{said:?} {:?}", put.due);
            assert!(least > 0 || (said.trials == 1 && !said.spent), "{said:?} {:?}", put.due);
            met.limit_0 += usize::from(least == 0);
            met.ended += usize::from(!said.spent);
            met.spent += usize::from(said.spent);
            met.beyond += usize::from(is_beyond);
        }
    }
    assert!(met.least() > 200, "{met:?}");
}

/// Our longest walk is at most eight times the least longest of anybody's closed walks unless spent; a spent one may be
/// beyond.
#[test]
fn walks_against_all_closed_walks() {
    let mut random = Random::new(125);
    let mut met = Met::default();
    for _ in 0..2_500 {
        let put = Put::new(&mut random);
        met.note(&put);
        let least = least_longest(put.kind, &put.due, &put.crews);
        let said = every_reply(&put);
        assert_eq!(said.is_none(), least.is_none(), "{:?}", put.due);
        let (Some(said), Some(least)) = (said, least) else {
            met.no_cover += 1;
            continue;
        };
        for said in said {
            let longest = longest_walk(&put, &said.cover);
            assert_eq!(longest, 2 * said.heaviest, "{said:?} {:?}", put.due);
            let is_beyond = longest > 8 * least;
            assert!(said.spent || !is_beyond, "{least} {said:?} {:?}", put.due);
            met.limit_0 += usize::from(said.high == 0);
            met.ended += usize::from(!said.spent);
            met.spent += usize::from(said.spent);
            met.beyond += usize::from(is_beyond);
        }
    }
    assert!(met.least() > 50, "{met:?}");
}

/// The length of the longest walk of a cover's trees.
fn longest_walk(put: &Put, cover: &[u8]) -> u64 {
    let mut lent = buffer();
    let lengths = (0..).map_while(|tree| {
        walk_with(put.kind, put.brought(), put.k(), cover, tree, &mut lent).ok().map(|said| said.1)
    });
    lengths.max().expect("a tree")
}

/// With more trials the floor never falls and high never rises, nor are fewer trials made or a search spent again. The
/// heaviest weight falls at times and rises at times; without roots it rises too rarely to be met here, so that a sheet of
/// `within_trials` stands for it.
#[test]
fn more_trials() {
    let mut random = Random::new(126);
    let (mut falls, mut rises) = ([0; 2], [0; 2]);
    for _ in 0..10_000 {
        let put = Put::new(&mut random);
        for pair in every_reply(&put).unwrap_or_default().windows(2) {
            let (fewer, more) = (&pair[0], &pair[1]);
            assert!(fewer.floor <= more.floor && more.high <= fewer.high, "{pair:?}");
            assert!(more.floor <= more.high && fewer.trials <= more.trials, "{pair:?}");
            assert_eq!(more.trials, fewer.trials + u64::from(fewer.spent), "{pair:?}");
            assert!(fewer.spent || (!more.spent && fewer.cover == more.cover), "{pair:?}");
            let kind = usize::from(put.kind == Kind::Unrooted);
            falls[kind] += usize::from(more.heaviest < fewer.heaviest);
            rises[kind] += usize::from(more.heaviest > fewer.heaviest);
        }
    }
    assert!(falls[0].min(falls[1]).min(rises[0]) > 100, "{falls:?} {rises:?}");
}
