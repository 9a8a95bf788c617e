//! The check of a filed cover.

use crate::forest::Joined;
use crate::graph::Graph;
use crate::question::{admit, is_rooted, Question};

/// Answers 0 for yes, with the heaviest weight in the first value, otherwise with the number of the refusal.
pub fn check(question: Question, cover: &[u8], values: &mut [u64; 3]) -> u32 {
    match checked(&question, cover) {
        Ok(Checked { heaviest, .. }) => {
            values[0] = heaviest;
            0
        }
        Err(number) => number,
    }
}

/// A filed cover's fields: two counts, the starts, the tree numbers, the edge numbers.
pub struct Filed<'a> {
    bytes: &'a [u8],
    pub t: usize,
    q: usize,
}

impl Filed<'_> {
    /// Takes cover bytes apart, or refuses their length with 31.
    fn read(bytes: &[u8]) -> Result<Filed<'_>, u32> {
        let mut filed = Filed { bytes, t: 0, q: 0 };
        if bytes.len() < 4 {
            return Err(31);
        }
        (filed.t, filed.q) = (filed.field(0) as usize, filed.field(1) as usize);
        if bytes.len() != 4 + 2 * filed.t + 4 * filed.q {
            return Err(31);
        }
        Ok(filed)
    }

    fn field(&self, at: usize) -> u16 {
        u16::from_le_bytes([self.bytes[2 * at], self.bytes[2 * at + 1]])
    }

    pub fn start(&self, tree: usize) -> u16 {
        self.field(2 + tree)
    }

    /// The edges of a tree by rising number; the entries must rise.
    pub fn edges(&self, tree: usize) -> impl Iterator<Item = u16> + Clone + '_ {
        (self.first_of(tree)..self.first_of(tree + 1)).map(|i| self.entry(i).1)
    }

    /// The first entry whose tree is not below this one.
    fn first_of(&self, tree: usize) -> usize {
        let (mut low, mut high) = (0, self.q);
        while low < high {
            let middle = (low + high) / 2;
            if (self.entry(middle).0 as usize) < tree {
                low = middle + 1;
            } else {
                high = middle;
            }
        }
        low
    }

    /// The tree and the edge of an entry.
    fn entry(&self, i: usize) -> (u16, u16) {
        (self.field(2 + self.t + i), self.field(2 + self.t + self.q + i))
    }

    /// Whether the starts follow the rule of the kind: rooted, they are the list of vans byte by byte, if there is one.
    fn starts_fit(&self, question: &Question, n: usize) -> bool {
        let Question { kind, k, .. } = *question;
        if let Some(list) = question.listed() {
            return self.t == k && self.bytes[4..4 + 2 * k] == *list;
        }
        let mut starts = (0..self.t).map(|tree| self.start(tree) as usize);
        if is_rooted(kind) {
            return starts.eq(0..k);
        }
        (1..=k).contains(&self.t) && starts.all(|start| start < n)
    }

    /// Whether the entries name trees and edges that exist and rise strictly.
    fn entries_fit(&self, m: usize) -> bool {
        let mut before = None;
        (0..self.q).all(|i| {
            let entry = self.entry(i);
            let rises = before < Some(entry);
            before = Some(entry);
            rises && (entry.0 as usize) < self.t && (entry.1 as usize) < m
        })
    }
}

/// What is known of a cover that is checked.
pub struct Checked<'a> {
    pub graph: Graph,
    pub filed: Filed<'a>,
    heaviest: u64,
}

/// Checks cover bytes, or refuses them: as a question is, or with 31 to 35.
pub fn checked<'a>(question: &Question, cover: &'a [u8]) -> Result<Checked<'a>, u32> {
    let graph = admit(question)?;
    let filed = Filed::read(cover)?;
    if !filed.starts_fit(question, graph.n) {
        return Err(32);
    }
    if !filed.entries_fit(graph.edges.len()) {
        return Err(33);
    }
    let mut covered = [false; 256];
    let mut joined = Joined::apart(graph.n);
    let (mut heaviest, mut at) = (0, 0);
    for tree in 0..filed.t {
        let begin = at;
        while at < filed.q && filed.entry(at).0 as usize == tree {
            at += 1;
        }
        let edges = (begin..at).map(|i| filed.entry(i).1);
        let weight = tree_weight(&graph, filed.start(tree), edges, &mut joined, &mut covered);
        heaviest = weight.ok_or(34u32)?.max(heaviest);
    }
    if !covered[..graph.n].iter().all(|&is| is) {
        return Err(35);
    }
    Ok(Checked { graph, filed, heaviest })
}

/// The weight of a tree, whose vertices are marked, or nothing if it has a loop or an edge not joined to its start.
/// Nothing is joined before and after.
fn tree_weight(
    graph: &Graph,
    start: u16,
    edges: impl Iterator<Item = u16> + Clone,
    joined: &mut Joined,
    covered: &mut [bool; 256],
) -> Option<u64> {
    let edge = |e: u16| graph.edges[e as usize];
    let mut weight = 0;
    for edge in edges.clone().map(edge) {
        if !joined.join(edge.a, edge.b) {
            return None;
        }
        weight += u64::from(edge.weight);
    }
    let home = joined.find(start);
    covered[start as usize] = true;
    for edge in edges.clone().map(edge) {
        if joined.find(edge.a) != home {
            return None;
        }
        covered[edge.a as usize] = true;
        covered[edge.b as usize] = true;
    }
    for edge in edges.map(edge) {
        joined.reset(edge.a);
        joined.reset(edge.b);
    }
    Some(weight)
}
