//! Records with a list of classes: single edges of every class, and right lists beside graphs of every shape and size. The
//! wrong lists are in `made_wrong_lists`.

use crate::cover::{encode as cover_bytes, Tree};
use crate::districts::Record;
use crate::graph::{read, sheet, Edge, Graph};
use crate::made_filings::{around_a_cover, asked, full_size as full_size_filings};
use crate::made_gates::{at_the_brink, BY_HAND};
use crate::made_records::{around_best, around_best_for_few_and_many, at, best_of, check_of};
use crate::made_records::{deepest, full_size, BOTH};
use crate::made_shapes::{any_weights, graph, Shape, Weights, SEARCHED, SHAPES};
use crate::made_trials::at_turns;
use crate::made_wrong_lists::wrong_lists;
use crate::question::Kind;
use crate::random::Random;
use crate::surface::{adjust, adjusted};

/// The lowest and the highest class of each range.
pub const BORDERS: [u8; 10] = [0, 9, 10, 19, 20, 39, 40, 59, 60, 255];

/// What the edges weigh before they are adjusted, where none is weightless.
const WEIGHTS: [Weights; 8] = [
    Weights::Between(1, 1),
    Weights::Between(1, 3),
    Weights::Between(1, 9),
    Weights::Between(5, 8),
    Weights::Either(1, 20),
    Weights::Between(500_000, 500_000),
    Weights::Between(1, 833_333),
    Weights::Either(1, 833_333),
];

/// Every record with a list of classes.
pub fn surfaced() -> Vec<Record> {
    let mut random = Random::new(53);
    let mut all = single_edges();
    all.extend(on_sheet_n());
    all.extend(on_gates());
    all.extend(wrong_lists());
    for (n, k, edges) in SEARCHED {
        all.extend(Listed::new(&mut random, &Graph::new(n, edges)).around_best(&mut random, k));
    }
    for turn in 0..5 {
        SHAPES.iter().for_each(|&shape| all.extend(made(&mut random, shape, turn)));
    }
    for turn in 0..2 {
        SHAPES.iter().for_each(|&shape| all.extend(next_to_changes(&mut random, shape, turn)));
    }
    all.extend(filed(&mut random));
    all.extend(largest(&mut random));
    all
}

/// A graph's bytes with a right list of classes, and the graph of the weights so adjusted.
struct Listed {
    sheet: Vec<u8>,
    classes: Vec<u8>,
    adjusted: Graph,
}

impl Listed {
    /// A graph with a list made for it.
    fn new(random: &mut Random, graph: &Graph) -> Listed {
        let classes = right_list(random, graph);
        Listed::of(graph, classes)
    }

    fn of(graph: &Graph, classes: Vec<u8>) -> Listed {
        let adjusted = adjust(graph, &classes).expect("a right list");
        Listed { sheet: graph.to_sheet(), classes, adjusted }
    }

    /// Questions on the adjusted weights, put with the sheet and the list instead.
    fn put(&self, records: impl IntoIterator<Item = Record>) -> Vec<Record> {
        let put = |record: Record| {
            Record { sheet: self.sheet.clone(), ..record }.with_classes(&self.classes)
        };
        records.into_iter().map(put).collect()
    }

    /// Both kinds around the best limit.
    fn around_best(&self, random: &mut Random, k: usize) -> Vec<Record> {
        let around = BOTH.map(|kind| around_best(random, kind, &self.adjusted, k));
        self.put(around.into_iter().flatten())
    }

    /// Trials on both sides of every change of the reply.
    fn at_turns(&self, kind: Kind, k: usize) -> Vec<Record> {
        let trials = at_turns(kind, &self.adjusted, k);
        self.put(trials.iter().map(|trial| at(kind, k, trial.limit, &trial.sheet)))
    }
}

/// A class for each edge, one for all or each drawn by itself, and one that counts 100 percent where the adjusted weight
/// would be above 1,000,000.
pub fn right_list(random: &mut Random, graph: &Graph) -> Vec<u8> {
    let (way, throughout) = (random.below(4), BORDERS[random.below(BORDERS.len())]);
    let class_of = |edge: &Edge| {
        let class = match way {
            0 => throughout,
            1 => random.below(70) as u8,
            _ => BORDERS[random.below(BORDERS.len())],
        };
        let plain = [0, 9, 60, 255][random.below(4)];
        if adjusted(edge.weight, class) > 1_000_000 {
            plain
        } else {
            class
        }
    };
    graph.edges.iter().map(class_of).collect()
}

/// One edge: of every class, and of the classes at the borders with weight 0 and weights where rounding or 54 would show.
fn single_edges() -> Vec<Record> {
    let weights = [0, 1, 2, 3, 4, 5, 99, 100, 101, 1_000_000];
    let near_the_most = [500_000, 500_001, 666_666, 666_667, 833_333, 833_334];
    let mut all = Vec::new();
    for class in 0..=255 {
        let check = check_of(BOTH[usize::from(class % 2)], 1, &one_edge(101), along_it());
        all.push(check.with_classes(&[class]));
    }
    for (i, &weight) in weights.iter().chain(&near_the_most).enumerate() {
        for (j, class) in BORDERS.into_iter().enumerate() {
            let (kind, other) = (BOTH[(i + j) % 2], BOTH[(i + j + 1) % 2]);
            let edge = one_edge(weight);
            all.push(check_of(kind, 1, &edge, along_it()).with_classes(&[class]));
            all.push(best_of(other, 1, &edge).with_classes(&[class]));
        }
    }
    all
}

/// Two vertices and an edge.
fn one_edge(weight: u64) -> Vec<u8> {
    sheet(2, &[(0, 1, weight)])
}

/// The cover of one tree with that edge.
fn along_it() -> Vec<u8> {
    cover_bytes(&[Tree::new(0, vec![0])])
}

/// Sheet N of document 01, with one class throughout and with several.
fn on_sheet_n() -> Vec<Record> {
    let n = Graph::new(4, &[(0, 2, 3), (2, 3, 3), (1, 3, 5)]);
    let lists = [[9; 3], [10; 3], [39; 3], [40; 3], [59, 0, 0], [60, 255, 9], [19, 39, 59]];
    let mut all = Vec::new();
    for classes in lists {
        let listed = Listed::of(&n, classes.to_vec());
        for kind in BOTH {
            all.extend(listed.at_turns(kind, 2));
            let mut records = vec![best_of(kind, 2, &[]), best_of(kind, 1, &[])];
            for [first, second] in [[&[0][..], &[2]], [&[0, 1], &[]], [&[], &[1, 2]]] {
                let trees = [Tree::new(0, first.to_vec()), Tree::new(1, second.to_vec())];
                records.push(check_of(kind, 2, &[], cover_bytes(&trees)));
            }
            all.extend(listed.put(records));
        }
    }
    all
}

/// Weightless edges by hand, at and below the number of trees that a limit of 0 needs.
fn on_gates() -> Vec<Record> {
    let mut random = Random::new(54);
    let listed = BY_HAND.map(|(n, edges)| Listed::new(&mut random, &Graph::new(n, edges)));
    let around = |listed: &Listed| {
        BOTH.map(|kind| listed.put(at_the_brink(kind, &listed.adjusted))).concat()
    };
    listed.iter().flat_map(around).collect()
}

/// Both kinds around the best limit of a made graph.
fn made(random: &mut Random, shape: Shape, turn: usize) -> Vec<Record> {
    let n = random.between(1, if turn % 4 == 3 { 40 } else { 10 });
    let k = random.between(1, n.min(6));
    let weights = any_weights(random, &WEIGHTS);
    let graph = graph(random, shape, n, k, weights);
    Listed::new(random, &graph).around_best(random, k)
}

/// Trials of one kind on a made graph.
fn next_to_changes(random: &mut Random, shape: Shape, turn: usize) -> Vec<Record> {
    let n = random.between(4, 9);
    let k = random.between(1, 3);
    let weights = any_weights(random, &WEIGHTS);
    let graph = graph(random, shape, n, k, weights);
    Listed::new(random, &graph).at_turns(BOTH[turn % 2], k)
}

/// Filed covers with each kind of damage, and those of full size, each weight of which is doubled to 1,000,000.
fn filed(random: &mut Random) -> Vec<Record> {
    let mut all = Vec::new();
    while all.len() < 500 {
        let (graph, kind, k) = asked(random);
        let listed = Listed::new(random, &graph);
        let filings = around_a_cover(random, &listed.adjusted, kind, k);
        all.extend(listed.put(filings.into_iter().map(|f| check_of(f.kind, f.k, &[], f.cover))));
    }
    for filing in full_size_filings(random) {
        let mut graph = read(&filing.sheet).expect("a right sheet");
        graph.edges.iter_mut().for_each(|edge| edge.weight /= 2);
        let classes = (40..60).cycle().take(graph.edges.len()).collect();
        let check = check_of(filing.kind, filing.k, &[], filing.cover);
        all.extend(Listed::of(&graph, classes).put([check]));
    }
    all
}

/// The deepest trees around their best limits, and best limits of full size.
fn largest(random: &mut Random) -> Vec<Record> {
    let mut all = Vec::new();
    for shape in [Shape::Path, Shape::Star] {
        let graph = deepest(random, shape, Weights::Between(1, 9));
        let listed = Listed::new(random, &graph);
        all.extend(listed.put(around_best_for_few_and_many(random, &listed.adjusted)));
    }
    for (shape, weights) in [(Shape::Grid, WEIGHTS[2]), (Shape::Far, WEIGHTS[6])] {
        let graph = full_size(random, shape, weights);
        let listed = Listed::new(random, &graph);
        all.extend(listed.put(BOTH.map(|kind| best_of(kind, 32, &[]))));
    }
    all
}
