//! Made filings for the check: good covers, and each kind of damage at each field of a cover.

use std::ops::Range;

use crate::best;
use crate::bytes::two;
use crate::cover::{encode, Tree};
use crate::graph::{sheet, Graph};
use crate::made_shapes::damaged_sheets;
use crate::question::Kind;
use crate::random::Random;

/// One question of the check: kind, number of trees, sheet bytes and cover bytes.
pub struct Filing {
    pub kind: Kind,
    pub k: usize,
    pub sheet: Vec<u8>,
    pub cover: Vec<u8>,
}

/// All made filings: random ones with their damages, refused sheets and counts, and full-size ones.
pub fn filings() -> Vec<Filing> {
    let mut random = Random::new(35);
    let mut all = Vec::new();
    while all.len() < 2_200 {
        let (graph, kind, k) = asked(&mut random);
        all.extend(around_a_cover(&mut random, &graph, kind, k));
    }
    all.extend(refused_before_the_cover());
    all.extend(full_size(&mut random));
    all
}

/// A random graph, with a kind and a number of trees to ask for.
pub fn asked(random: &mut Random) -> (Graph, Kind, usize) {
    let n = random.between(1, 6);
    let m = random.between(0, 8);
    let graph = random.any_graph(n, m, 9);
    let kind = if random.below(2) == 0 { Kind::Rooted } else { Kind::Unrooted };
    let k = random.between(1, n.min(3));
    (graph, kind, k)
}

/// A good cover of a graph, if one exists, and that cover damaged in every way.
pub fn around_a_cover(random: &mut Random, graph: &Graph, kind: Kind, k: usize) -> Vec<Filing> {
    let Some((_, trees)) = best::search(kind, graph, k) else {
        return Vec::new();
    };
    let good = encode(&trees);
    let mut covers = vec![good.clone()];
    covers.extend(changed_fields(random, &good));
    covers.extend(changed_lengths(&good));
    covers.extend(changed_trees(random, graph, &trees));
    let sheet = graph.to_sheet();
    let file = |cover| Filing { kind, k, sheet: sheet.clone(), cover };
    covers.into_iter().map(file).collect()
}

/// Bytes with each of their two-byte fields changed: one more, one less, and to any number.
pub fn changed_fields(random: &mut Random, good: &[u8]) -> Vec<Vec<u8>> {
    let mut out = Vec::new();
    for at in (0..good.len()).step_by(2) {
        let value = two(good, at);
        for other in [value + 1, value.wrapping_sub(1) % 65_536, random.below(12)] {
            let mut changed = good.to_vec();
            changed[at] = (other % 256) as u8;
            changed[at + 1] = (other / 256 % 256) as u8;
            out.push(changed);
        }
    }
    out
}

/// Bytes cut short at every place, and longer by one byte and by two.
pub fn changed_lengths(good: &[u8]) -> Vec<Vec<u8>> {
    let mut out: Vec<Vec<u8>> = (0..good.len()).map(|end| good[..end].to_vec()).collect();
    out.push([good, &[0]].concat());
    out.push([good, &[0, 0]].concat());
    out
}

/// The trees with an edge taken away, with one added anywhere, with two trees exchanged, and with one tree more or less.
pub fn changed_trees(random: &mut Random, graph: &Graph, trees: &[Tree]) -> Vec<Vec<u8>> {
    let mut out = Vec::new();
    for j in 0..trees.len() {
        for e in 0..graph.edges.len() {
            let mut other = trees.to_vec();
            match other[j].edges.iter().position(|&f| f == e) {
                Some(place) => drop(other[j].edges.remove(place)),
                None => other[j] = Tree::new(trees[j].start, [&trees[j].edges[..], &[e]].concat()),
            }
            out.push(encode(&other));
        }
    }
    let mut exchanged = trees.to_vec();
    let last = exchanged.len() - 1;
    exchanged.swap(0, last);
    out.push(encode(&exchanged));
    out.push(encode(&trees[..last]));
    let alone = Tree::new(random.below(graph.n), Vec::new());
    out.push(encode(&[trees, &[alone]].concat()));
    out
}

/// Questions refused for the sheet (11 to 16) or the number of trees (21), with a cover that would do.
fn refused_before_the_cover() -> Vec<Filing> {
    let sheets = damaged_sheets();
    let short = sheet(2, &[(0, 1, 1)]);
    let cover = encode(&[Tree::new(0, vec![0])]);
    let mut all = Vec::new();
    for kind in [Kind::Rooted, Kind::Unrooted] {
        for sheet in &sheets {
            all.push(Filing { kind, k: 1, sheet: sheet.clone(), cover: cover.clone() });
        }
        for k in [0, 1, 2, 3, 32, 33, 65_535] {
            all.push(Filing { kind, k, sheet: short.clone(), cover: cover.clone() });
        }
    }
    all
}

/// A path of n vertices with edges of weight 1, and trees without roots that cover each of its vertices, or each but the one
/// left out: one tree of those before it, one of those behind it.
pub fn along_a_path(n: usize, left_out: Option<usize>) -> Filing {
    let path: Vec<(usize, usize, u64)> = (1..n).map(|v| (v - 1, v, 1)).collect();
    let runs = left_out.map_or(vec![0..n], |v| vec![0..v, v + 1..n]);
    let along = |run: Range<usize>| Tree::new(run.start, (run.start..run.end - 1).collect());
    let trees: Vec<Tree> = runs.into_iter().filter(|run| !run.is_empty()).map(along).collect();
    Filing { kind: Kind::Unrooted, k: 2, sheet: sheet(n, &path), cover: encode(&trees) }
}

/// Covers of full size: 32 trees of 255 edges on 256 vertices, good and damaged at the last entry.
pub fn full_size(random: &mut Random) -> Vec<Filing> {
    let path: Vec<(usize, usize, u64)> =
        (1..256).map(|v| (random.below(v), v, 1_000_000)).collect();
    let graph = Graph::new(256, &path);
    let mut all = Vec::new();
    for kind in [Kind::Rooted, Kind::Unrooted] {
        let trees: Vec<Tree> = (0..32).map(|j| Tree::new(j, (0..255).collect())).collect();
        let good = encode(&trees);
        let mut last = good.clone();
        let end = last.len() - 2;
        last[end] = 255;
        for cover in [good, last] {
            all.push(Filing { kind, k: 32, sheet: graph.to_sheet(), cover });
        }
    }
    all
}
