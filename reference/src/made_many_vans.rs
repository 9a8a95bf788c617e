//! Records with a list of up to 32 vans: more than there are vertices, and on the largest graphs.

use crate::best;
use crate::cover::{encode as cover_bytes, Tree};
use crate::districts::Record;
use crate::graph::sheet;
use crate::made_records::{at, best_of, check_of, deepest, full_size};
use crate::made_shapes::{Shape, Weights};
use crate::made_vans::put;
use crate::question::{Kind, LIMIT};
use crate::random::Random;

/// Every such record.
pub fn many_vans(random: &mut Random) -> Vec<Record> {
    let mut all = of_one_vertex();
    all.extend(deep(random));
    all.extend(largest(random));
    all
}

/// One vertex, or two without edges, and up to 32 vans.
fn of_one_vertex() -> Vec<Record> {
    let mut all = Vec::new();
    for (n, k) in [(1, 2), (1, 31), (1, 32), (2, 32)] {
        let (bare, vans) = (sheet(n, &[]), vec![n - 1; k]);
        let mut records: Vec<Record> =
            [0, 1, LIMIT].map(|limit| at(Kind::Rooted, k, limit, &bare)).into();
        let alone: Vec<Tree> = vans.iter().map(|&van| Tree::new(van, vec![])).collect();
        records.push(best_of(Kind::Rooted, k, &bare));
        records.push(check_of(Kind::Rooted, k, &bare, cover_bytes(&alone)));
        all.extend(put(records, &vans));
    }
    all
}

/// The deepest trees with 32 vans: at one vertex, spread, and at both ends by turns.
fn deep(random: &mut Random) -> Vec<Record> {
    let spread: Vec<usize> = (0..32).map(|j| 255 - 8 * j).collect();
    let by_turns: Vec<usize> = (0..32).map(|j| 255 * (j % 2)).collect();
    let rows = [
        (Shape::Path, vec![vec![255; 32], spread.clone(), by_turns.clone()]),
        (Shape::Caterpillar, vec![vec![128; 32], spread]),
        (Shape::Star, vec![vec![0; 32], by_turns]),
    ];
    let mut all = Vec::new();
    for (shape, lists) in rows {
        let graph = deepest(random, shape, Weights::Between(1, 9));
        let sheet = graph.to_sheet();
        for vans in lists {
            let (limit, trees) = best::search(Kind::Rooted, &graph, &vans).expect("a cover");
            let records = vec![
                best_of(Kind::Rooted, 32, &sheet),
                at(Kind::Rooted, 32, limit - 1, &sheet),
                at(Kind::Rooted, 32, 255 * 9 + 1, &sheet),
                check_of(Kind::Rooted, 32, &sheet, cover_bytes(&trees)),
            ];
            all.extend(put(records, &vans));
        }
    }
    all
}

/// 256 vertices and 2,048 edges with 32 vans, at one vertex and spread; and the largest cover, all its trees from one vertex.
fn largest(random: &mut Random) -> Vec<Record> {
    let mut all = Vec::new();
    let spread: Vec<usize> = (0..32).map(|j| (255 - 8 * j) / 2 * 2).collect();
    let rows = [
        (Shape::Grid, Weights::Between(1, 9), vec![255; 32]),
        (Shape::Far, Weights::Between(1, 1_000_000), spread.clone()),
        (Shape::Grid, Weights::Between(0, 5), [&spread[..16], &spread[..16]].concat()),
    ];
    for (shape, weights, vans) in rows {
        let sheet = full_size(random, shape, weights).to_sheet();
        all.extend(put(vec![best_of(Kind::Rooted, 32, &sheet)], &vans));
    }
    let path = deepest(random, Shape::Path, Weights::Between(1_000_000, 1_000_000));
    let whole = vec![Tree::new(255, (0..255).collect()); 32];
    let check = check_of(Kind::Rooted, 32, &path.to_sheet(), cover_bytes(&whole));
    all.extend(put(vec![check], &[255; 32]));
    all
}
