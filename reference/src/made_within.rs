//! Records with a number of trials: by hand, on graphs of every shape with and without lists, and on the largest. The wrong
//! numbers of trials beside other refusals are in `made_wrong_trials`.

use std::collections::BTreeSet;

use crate::districts::{Asked, Record};
use crate::graph::{sheet, Graph};
use crate::made_gates::BY_HAND as GATES;
use crate::made_records::{deepest, full_size, BOTH};
use crate::made_shapes::{any_weights, graph, Shape, Weights, POSITIVE, SHAPES};
use crate::made_shapes::{CHAIN, CROWD, HALVES, LOOP, RISING_ROOTED, RISING_UNROOTED, UNEVEN};
use crate::made_surfaces::right_list;
use crate::made_vans::any_vans;
use crate::made_wrong_trials::wrong_trials;
use crate::question::{Kind, BUFFER};
use crate::random::Random;
use crate::vans::bytes;
use crate::within::{stand, TRIALS};

/// Every record with a number of trials.
pub fn within() -> Vec<Record> {
    let mut random = Random::new(56);
    let mut all = on_sheet_n();
    all.extend(of_one_edge(&mut random));
    all.extend(by_hand(&mut random));
    all.extend(without_a_cover());
    all.extend(long_searches(&mut random));
    all.extend(wrong_trials());
    for turn in 0..10 {
        SHAPES.iter().for_each(|&shape| all.extend(made(&mut random, shape, turn)));
    }
    all.extend(with_many_vans());
    all.extend(deep(&mut random));
    all.extend(largest(&mut random));
    all
}

/// The question with a number of trials.
pub fn within_of(kind: Kind, k: usize, trials: u64, sheet: &[u8]) -> Record {
    Record::plain(Asked::Within { trials, room: BUFFER }, kind, k, sheet)
}

/// The same question with each of some numbers of trials.
pub fn for_each(record: &Record, trials: impl IntoIterator<Item = u64>) -> Vec<Record> {
    let room = record.room();
    let of = |trials| Record { asked: Asked::Within { trials, room }, ..record.clone() };
    trials.into_iter().map(of).collect()
}

/// How many trials the whole search of a question makes; nothing where it is refused or there is no cover.
fn whole(record: &Record) -> Option<u64> {
    let brought = record.brought();
    let graph = brought.graph().ok()?;
    let roots = brought.crews(record.kind, graph.n, record.k as u64).ok()?;
    stand(record.kind, &graph, &roots, *TRIALS.end()).map(|at| at.trials)
}

/// A question for every number of trials that stops its search, and for one more; of a long search the first and the last of
/// them and so many in between.
fn at_every_stop(random: &mut Random, record: &Record, between: usize) -> Vec<Record> {
    let Some(whole) = whole(record) else { return for_each(record, [2, 33]) };
    let mut trials: BTreeSet<u64> = [2, 3, whole.saturating_sub(1), whole, whole + 1].into();
    let drawn = |_| random.between(3, whole.max(3) as usize) as u64;
    trials.extend((0..between).map(drawn));
    for_each(record, trials.into_iter().filter(|p| TRIALS.contains(p)))
}

/// Numbers of trials that are refused, some of which the low byte alone or two of them would let pass.
pub const TOO_MANY: [u64; 7] =
    [34, 35, 256 + 2, 65_535, 65_536 + 2, (1 << 24) + 33, u32::MAX as u64];

/// Sheet N of document 01 with every number of trials, lawful or not, for some counts, and with a few for the others.
fn on_sheet_n() -> Vec<Record> {
    use Kind::{Rooted, Unrooted};
    let n = sheet(4, &[(0, 2, 3), (2, 3, 3), (1, 3, 5)]);
    let mut all = Vec::new();
    for (kind, k) in [(Rooted, 2), (Unrooted, 1), (Unrooted, 3), (Rooted, 4), (Unrooted, 4)] {
        all.extend(for_each(&within_of(kind, k, 2, &n), (0..34).chain(TOO_MANY)));
    }
    for (kind, k) in [(Rooted, 1), (Rooted, 3), (Unrooted, 2), (Unrooted, 32)] {
        all.extend(for_each(&within_of(kind, k, 2, &n), [1, 2, 3, 4, 5, 6, 7, 33, 34]));
    }
    let listed = within_of(Rooted, 2, 2, &n).with_vans(&bytes(&[3, 3]));
    all.extend(for_each(&listed, 1..8));
    all.extend(for_each(&listed.with_classes(&[10, 20, 40]), 1..8));
    all.extend(for_each(&within_of(Unrooted, 2, 2, &n).with_classes(&[40, 20, 10]), 1..8));
    all
}

/// One edge: small sums, where the search is soon at its end, and large ones, where it halves as often as it can.
fn of_one_edge(random: &mut Random) -> Vec<Record> {
    let mut all = Vec::new();
    for (i, weight) in
        [0, 1, 2, 3, 4, 5, 8, 9, 1_000, 524_288, 999_999, 1_000_000].iter().enumerate()
    {
        for kind in BOTH {
            let edge = sheet(2, &[(0, 1, *weight)]);
            all.extend(at_every_stop(random, &within_of(kind, 1, 2, &edge), 2));
            let class = [0, 10, 20, 40][i % 4];
            if *weight < 500_000 {
                let listed = within_of(kind, 1, 2, &edge).with_classes(&[class]);
                all.extend(at_every_stop(random, &listed, 0));
            }
        }
    }
    all
}

/// Graphs on which the limits accepted do not persist, the heaviest tree rises, or edges are weightless.
fn by_hand(random: &mut Random) -> Vec<Record> {
    let searched = [
        (6, 2, HALVES),
        (9, 3, CROWD),
        (6, 2, UNEVEN),
        (4, 2, CHAIN),
        (7, 2, LOOP),
        (5, 2, RISING_ROOTED),
        (6, 3, RISING_UNROOTED),
    ];
    let mut all = Vec::new();
    for (n, k, edges) in searched {
        for kind in BOTH {
            all.extend(at_every_stop(random, &within_of(kind, k, 2, &sheet(n, edges)), 9));
        }
    }
    for (n, edges) in GATES {
        for (kind, k) in BOTH.into_iter().flat_map(|kind| [(kind, 1), (kind, 2)]) {
            all.extend(at_every_stop(random, &within_of(kind, k, 2, &sheet(n, edges)), 1));
        }
    }
    all
}

/// No cover, whatever the lawful number of trials, which is refused otherwise; and next to it one more tree, which suffices.
fn without_a_cover() -> Vec<Record> {
    let sheets = [sheet(2, &[]), sheet(3, &[(0, 1, 0)]), sheet(4, &[(0, 1, 9), (2, 3, 9)])];
    let mut all = Vec::new();
    for (bytes, kind) in sheets.iter().flat_map(|bytes| BOTH.map(|kind| (bytes, kind))) {
        all.extend(for_each(&within_of(kind, 1, 2, bytes), [0, 1, 2, 3, 32, 33, 34]));
        all.extend(for_each(&within_of(kind, 2, 2, bytes), [2, 3, 33]));
    }
    all
}

/// A heavy graph of twelve edges with every lawful number of trials, and one of 300 with those that still stop its search.
fn long_searches(random: &mut Random) -> Vec<Record> {
    let heavy = random.graph(6, 12, 1_000_000).to_sheet();
    let edges: Vec<(usize, usize, u64)> = (0..300).map(|e| (e % 2, 2, 1_000_000)).collect();
    let heavier = sheet(3, &edges);
    let mut all = Vec::new();
    for kind in BOTH {
        all.extend(for_each(&within_of(kind, 2, 2, &heavy), TRIALS));
        all.extend(for_each(&within_of(kind, 2, 2, &heavier), 25..=31));
    }
    all
}

/// Both kinds on one made graph, with no list, with one, or with both, for the numbers of trials that stop the search.
fn made(random: &mut Random, shape: Shape, turn: usize) -> Vec<Record> {
    let most = if turn % 4 == 3 { 24 } else { 9 };
    let n = random.between(2, most);
    let k = random.between(1, n.min(5));
    let weights = any_weights(random, &POSITIVE);
    let graph = graph(random, shape, n, k, weights);
    let mut all = Vec::new();
    for kind in BOTH {
        let record = listed(random, kind, &graph, k, turn % 4);
        all.extend(at_every_stop(random, &record, 1));
    }
    let most = if turn % 4 == 3 { 4 } else { 6 };
    while all.len() > most {
        all.swap_remove(random.below(all.len()));
    }
    all
}

/// A question with no list, classes, vans, or both.
fn listed(random: &mut Random, kind: Kind, graph: &Graph, k: usize, way: usize) -> Record {
    let classes = (way % 2 == 1).then(|| right_list(random, graph));
    let drawn = random.below(4);
    let vans = (way >= 2).then(|| any_vans(random, graph.n, drawn));
    let k = vans.as_ref().map_or(k, Vec::len);
    let plain = within_of(kind, k, 2, &graph.to_sheet());
    Record { classes, vans: vans.as_deref().map(bytes), ..plain }
}

/// 32 vans on one vertex, on two with an edge and on two without.
fn with_many_vans() -> Vec<Record> {
    let sheets = [sheet(1, &[]), sheet(2, &[(0, 1, 6)]), sheet(2, &[])];
    let vans = bytes(&[0; 32]);
    let asked = sheets.iter().map(|sheet| within_of(Kind::Rooted, 32, 2, sheet).with_vans(&vans));
    asked.flat_map(|record| for_each(&record, [1, 2, 3, 33, 34])).collect()
}

/// The deepest trees for 1 tree and for 32.
fn deep(random: &mut Random) -> Vec<Record> {
    let mut all = Vec::new();
    for (shape, weights) in [
        (Shape::Path, Weights::Between(1, 9)),
        (Shape::Star, Weights::Between(1, 1_000_000)),
        (Shape::Caterpillar, Weights::Between(0, 3)),
    ] {
        let graph = deepest(random, shape, weights);
        for (kind, k) in BOTH.into_iter().flat_map(|kind| [(kind, 1), (kind, 32)]) {
            let record = within_of(kind, k, 2, &graph.to_sheet());
            let p = whole(&record).expect("a cover");
            all.extend(for_each(&record, [[2, 3, 5][random.below(3)], p - 1]));
        }
    }
    let path = deepest(random, Shape::Path, Weights::Between(1, 500_000));
    let spread: Vec<usize> = (0..32).map(|j| 255 - 8 * j).collect();
    let record = within_of(Kind::Rooted, 32, 2, &path.to_sheet()).with_vans(&bytes(&spread));
    all.extend(for_each(&record.with_classes(&[40; 255]), [2, 12, 33]));
    all
}

/// 2,048 edges: the largest sum of all, with lists, and weightless; and two vertices between which one edge is a little
/// lighter, so that the search needs all 33 trials.
fn largest(random: &mut Random) -> Vec<Record> {
    let heavy = full_size(random, Shape::Grid, Weights::Between(1_000_000, 1_000_000)).to_sheet();
    let mut all = vec![within_of(Kind::Rooted, 32, 2, &heavy)];
    all.push(within_of(Kind::Unrooted, 1, 33, &heavy));
    let lighter = |e: usize| if e == 2_000 { 777_720 } else { 1_000_000 };
    let between: Vec<(usize, usize, u64)> = (0..2_048).map(|e| (0, 1, lighter(e))).collect();
    all.extend(BOTH.map(|kind| within_of(kind, 1, 32, &sheet(2, &between))));
    let far = full_size(random, Shape::Far, Weights::Between(1, 500_000)).to_sheet();
    let classes: Vec<u8> = (0..2_048).map(|e| [10, 20, 40, 0][e % 4]).collect();
    let vans: Vec<usize> = (0..32).map(|j| (255 - 8 * j) / 2 * 2).collect();
    let listed = within_of(Kind::Rooted, 32, 9, &far).with_classes(&classes);
    all.push(listed.with_vans(&bytes(&vans)));
    all.push(within_of(Kind::Unrooted, 32, 14, &far).with_classes(&classes));
    let weightless = full_size(random, Shape::Grid, Weights::Between(0, 0)).to_sheet();
    all.push(within_of(Kind::Unrooted, 1, 2, &weightless));
    all
}
