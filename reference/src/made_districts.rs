//! The records of the program `districts`: every row of document 01's list of small districts, made sheets of each kind, the
//! deepest trees, the made trials and the made filings, those about weightless edges; behind them those that bring a list of
//! classes, those that bring a list of vans, and last those with a number of trials.

use crate::cover::{encode as cover_bytes, Tree};
use crate::districts::{Asked, Record};
use crate::graph::{sheet, Graph};
use crate::made_filings::filings;
use crate::made_gates::gates;
use crate::made_records::{around_best, around_best_for_few_and_many, at, best_of, check_of};
use crate::made_records::{deepest, full_size, BOTH};
use crate::made_shapes::{any_weights, damaged_sheets, graph, Shape, Weights};
use crate::made_shapes::{POSITIVE, SEARCHED, SHAPES};
use crate::made_surfaces::surfaced;
use crate::made_trials::trials;
use crate::made_vans::listed_vans;
use crate::made_within::within;
use crate::question::{Kind, LIMIT};
use crate::random::Random;

/// Every record, the list of small districts first.
pub fn records() -> Vec<Record> {
    let mut all = small_districts();
    let mut random = Random::new(101);
    all.extend(refused(&mut random));
    for (n, k, edges) in SEARCHED {
        let graph = Graph::new(n, edges);
        BOTH.iter().for_each(|&kind| all.extend(around_best(&mut random, kind, &graph, k)));
    }
    for turn in 0..20 {
        SHAPES.iter().for_each(|&shape| all.extend(made(&mut random, shape, turn)));
    }
    for shape in [Shape::Grid, Shape::Path, Shape::Far] {
        let weights = POSITIVE[random.between(2, 6)];
        let sheet = full_size(&mut random, shape, weights).to_sheet();
        all.extend(BOTH.map(|kind| best_of(kind, 32, &sheet)));
    }
    for shape in [Shape::Path, Shape::Star, Shape::Caterpillar, Shape::Tree] {
        let graph = deepest(&mut random, shape, Weights::Between(1, 9));
        all.extend(around_best_for_few_and_many(&mut random, &graph));
    }
    all.extend(trials().iter().map(|trial| at(trial.kind, trial.k, trial.limit, &trial.sheet)));
    all.extend(filings().into_iter().map(|f| check_of(f.kind, f.k, &f.sheet, f.cover)));
    all.extend(gates());
    all.extend(surfaced());
    all.extend(listed_vans());
    all.extend(within());
    all
}

/// The rows of document 01's list, starred or not, in its order.
pub fn small_districts() -> Vec<Record> {
    use Kind::{Rooted, Unrooted};
    let n = sheet(4, &[(0, 2, 3), (2, 3, 3), (1, 3, 5)]);
    let mut all: Vec<Record> = [0, 2, 3, 4, 7, 5].iter().map(|&b| at(Rooted, 2, b, &n)).collect();
    all.push(best_of(Rooted, 2, &n));
    all.extend([at(Unrooted, 2, 3, &n), at(Unrooted, 3, 3, &n), at(Unrooted, 1, 5, &n)]);
    all.extend([best_of(Unrooted, 1, &n), at(Unrooted, 3, 0, &n), at(Unrooted, 4, 0, &n)]);
    BOTH.iter().for_each(|&kind| all.push(at(kind, 1, 0, &sheet(1, &[]))));
    BOTH.iter().for_each(|&kind| all.push(best_of(kind, 1, &sheet(2, &[]))));
    // The cover that has 5, then the rows of the check: edges of tree 0, edges of tree 1.
    for [first, second] in
        [[&[0][..], &[2]], [&[0, 1], &[]], [&[1, 0], &[]], [&[0], &[1]], [&[0], &[]]]
    {
        let trees = [(0, first), (1, second)];
        let trees = trees.map(|(start, edges)| Tree { start, edges: edges.to_vec() });
        all.push(check_of(Rooted, 2, &n, cover_bytes(&trees)));
    }
    all.extend(BOTH.iter().flat_map(|&kind| at_the_ends(kind, &n)));
    all
}

/// k 32 and 33, weights 1,000,000 and 1,000,001, buffers of 32,708 and 32,707 bytes.
fn at_the_ends(kind: Kind, n: &[u8]) -> Vec<Record> {
    let star = sheet(40, &(1..40).map(|v| (0, v, 2)).collect::<Vec<_>>());
    let lines = |tree: usize| if tree == 0 { (0..39).collect() } else { vec![] };
    let filed = cover_bytes(&(0..32).map(|v| Tree::new(v, lines(v))).collect::<Vec<_>>());
    let mut all = Vec::new();
    for k in [32, 33] {
        all.extend([at(kind, k, 6, &star), best_of(kind, k, &star)]);
        all.push(check_of(kind, k, &star, filed.clone()));
    }
    for weight in [1_000_000, 1_000_001] {
        let edge = sheet(2, &[(0, 1, weight)]);
        all.extend([at(kind, 1, 1_000_000, &edge), best_of(kind, 1, &edge)]);
        all.push(check_of(kind, 1, &edge, cover_bytes(&[Tree::new(0, vec![0])])));
    }
    for room in [32_708, 32_707] {
        for asked in [Asked::Trial { limit: 4, room }, Asked::Best { room }] {
            all.push(Record::plain(asked, kind, 2, n));
        }
    }
    all
}

/// Refused sheets, counts, limits and buffers, several at once too.
fn refused(random: &mut Random) -> Vec<Record> {
    let mut all = Vec::new();
    for bytes in damaged_sheets() {
        let kind = BOTH[random.below(2)];
        all.extend([at(kind, random.below(3), LIMIT + 1, &bytes), best_of(kind, 1, &bytes)]);
    }
    let edge = sheet(2, &[(0, 1, 1)]);
    for kind in BOTH {
        for (k, limit, room) in
            [(0, 0, 0), (3, LIMIT + 1, 0), (1, LIMIT + 1, 0), (1, LIMIT, 0), (1, LIMIT, 65_535)]
        {
            for asked in [Asked::Trial { limit, room }, Asked::Best { room }] {
                all.push(Record::plain(asked, kind, k, &edge));
            }
        }
    }
    all
}

/// Both kinds on one made graph: the best limit, trials around it, the check of its cover and of a damaged one.
fn made(random: &mut Random, shape: Shape, turn: usize) -> Vec<Record> {
    let most = if turn % 4 == 3 { 40 } else { 10 };
    let n = random.between(1, most);
    let k = random.between(1, n.min(6));
    let weights = any_weights(random, &POSITIVE);
    let graph = graph(random, shape, n, k, weights);
    BOTH.iter().flat_map(|&kind| around_best(random, kind, &graph, k)).collect()
}
