//! Questions with a number of trials on small random sheets, and a plain record of the trials that are due to them.

use super::buffer;
use super::surfaces::graph_due;
use super::vans::{any_vans, list};
use reference::brought::Brought;
use reference::cover::filed_length;
use reference::graph::Graph;
use reference::made_surfaces::BORDERS;
use reference::question::{Answer, Kind};
use reference::random::Random;
use reference::trial::trial_with;
use reference::within::{best_within_with, Within};

/// A sheet with or without lists, a kind and crews, and the graph of the weights due.
pub struct Put {
    pub kind: Kind,
    pub sheet: Vec<u8>,
    pub classes: Option<Vec<u8>>,
    pub vans: Option<Vec<u8>>,
    /// The start of each tree; without roots only their number counts.
    pub crews: Vec<usize>,
    pub due: Graph,
}

impl Put {
    /// Up to 6 vertices, 8 edges and 6 vans; about half of the graphs have weightless edges, half have a tree under their
    /// edges, half have classes, and half of the rooted questions have vans.
    pub fn new(random: &mut Random) -> Put {
        let graph = any_tied_graph(random);
        let kind = [Kind::Rooted, Kind::Unrooted][random.below(2)];
        let has_vans = random.below(2) == 0;
        let crews = match kind {
            Kind::Rooted if has_vans => any_vans(random, graph.n, 6),
            Kind::Rooted => (0..random.between(1, graph.n.min(3))).collect(),
            Kind::Unrooted => (0..random.between(1, 3)).collect(),
        };
        let class = |_| BORDERS[random.below(BORDERS.len())];
        let classes: Vec<u8> = graph.edges.iter().map(class).collect();
        let classes = (random.below(2) == 0).then_some(classes);
        let due = classes.as_ref().map_or(graph.clone(), |classes| graph_due(&graph, classes));
        let vans = has_vans.then(|| list(&crews));
        Put { kind, sheet: graph.to_sheet(), classes, vans, crews, due }
    }

    pub fn brought(&self) -> Brought<'_> {
        let (classes, vans) = (self.classes.as_deref(), self.vans.as_deref());
        Brought { sheet: &self.sheet, classes, vans }
    }

    pub fn k(&self) -> u64 {
        self.crews.len() as u64
    }

    /// The answer with p trials, and the bytes of the lent buffer that are a cover's; the others must be untouched.
    pub fn ask(&self, p: u64) -> (Within, Vec<u8>) {
        let (before, mut lent) = (buffer(), buffer());
        let answer = best_within_with(self.kind, self.brought(), self.k(), p, &mut lent);
        let length = match answer {
            Within::Cover { .. } => filed_length(&lent).expect("four bytes"),
            _ => 0,
        };
        assert!(lent[length..] == before[length..], "p {p} {:?}", self.due);
        lent.truncate(length);
        (answer, lent)
    }

    /// A trial made at a limit.
    fn made(&self, limit: u64) -> Made {
        let mut lent = buffer();
        let answer = trial_with(self.kind, self.brought(), self.k(), limit, &mut lent);
        let Answer::Cover { heaviest, .. } = answer else { return Made { limit, cover: None } };
        lent.truncate(filed_length(&lent).expect("four bytes"));
        Made { limit, cover: Some((heaviest, lent)) }
    }

    /// Every trial of the whole search, in its order; only where a cover exists.
    pub fn every_trial(&self) -> Vec<Made> {
        let mut made = vec![self.made(0)];
        let sum = self.due.edges.iter().map(|edge| edge.weight).sum();
        let tried = |made: &[Made]| -> Vec<(u64, bool)> {
            made.iter().map(|made| (made.limit, made.cover.is_some())).collect()
        };
        while let Some(limit) = next_limit(&tried(&made), sum) {
            made.push(self.made(limit));
        }
        made
    }
}

/// A graph with light, mixed or heavy weights, about half of these graphs with weightless edges, half with a tree underneath.
fn any_tied_graph(random: &mut Random) -> Graph {
    let (n, m) = (random.between(1, 6), random.between(0, 8));
    let most = [1, 3, 9, 400_000][random.below(4)];
    let mut graph = match random.below(2) {
        0 => random.graph(n, m, most),
        _ => random.gated_graph(n, m, most),
    };
    // A few edges far heavier than the rest are what a search that stops early does not come to avoid.
    if most < 10 && random.below(2) == 0 {
        graph.edges.iter_mut().for_each(|edge| edge.weight *= [1, 50][random.below(2)]);
    }
    if random.below(2) == 0 {
        for (v, edge) in (1..n).zip(&mut graph.edges) {
            (edge.a, edge.b) = (random.below(v), v);
        }
    }
    graph
}

/// A trial that was made: its limit, and its heaviest weight and cover if it was accepted.
pub struct Made {
    pub limit: u64,
    pub cover: Option<(u64, Vec<u8>)>,
}

/// The limit that follows those tried, each with whether it was accepted; nothing where the search is at its end.
///
/// Read off the list alone, backwards: the last one accepted is high, the last one refused is low.
pub fn next_limit(tried: &[(u64, bool)], sum: u64) -> Option<u64> {
    let last = |is: bool| tried.iter().rev().find(|tried| tried.1 == is).map(|tried| tried.0);
    match (last(false), last(true)) {
        (None, None) => Some(0),
        (None, Some(_)) => None,
        (Some(_), None) => Some(sum).filter(|_| tried.len() == 1),
        (Some(low), Some(high)) if low + 1 < high => Some(low + (high - low) / 2),
        _ => None,
    }
}

/// What is due of p trials where these are the whole search: the answer and the cover.
pub fn due_after(made: &[Made], p: usize) -> (Within, Vec<u8>) {
    let made = &made[..p.min(made.len())];
    let is_accepted = |made: &&Made| made.cover.is_some();
    let last = made.iter().rev().find(is_accepted).expect("an accepted limit");
    let refused = made.iter().rev().find(|made| made.cover.is_none());
    let (heaviest, cover) = last.cover.clone().expect("a cover");
    let (floor, spent) = match refused {
        None => (0, false),
        Some(low) => (low.limit + 1, last.limit > low.limit + 1),
    };
    (Within::Cover { high: last.limit, heaviest, trials: made.len() as u64, floor, spent }, cover)
}
