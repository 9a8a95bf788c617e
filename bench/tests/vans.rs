//! The quick version against `reference/` with lists of vans, and with more vans than vertices: trials, best limits, checks and
//! walks, on questions that are made here.

mod held;
mod put;

use bench::made::{sheet, spread, together, Shape, Size, SIZES};
use bench::question::BUFFER;
use put::{assert_met, listed, Met, Put};
use reference::brought::Brought;
use reference::cover::{decode, encode, gather, Tree};
use reference::question::Kind;
use reference::random::Random;

/// A right list: all at one vertex, at one of two, anywhere, or one vertex after the other, up or down, round and round.
fn vans(random: &mut Random, n: usize, k: usize) -> Vec<u8> {
    let (a, b) = (random.below(n), random.below(n));
    match random.below(5) {
        0 => listed(vec![a; k]),
        1 => listed((0..k).map(|_| [a, b][random.below(2)])),
        2 => listed((0..k).map(|j| (a + j) % n)),
        3 => listed((0..k).map(|j| n - 1 - (a + j) % n)),
        _ => listed((0..k).map(|_| random.below(n))),
    }
}

/// Cover bytes made of right ones: the trees of two neighbours exchanged, with their starts and without, another start, an edge
/// more or fewer, a tree more or fewer.
fn altered(random: &mut Random, cover: &[u8], n: usize, m: usize) -> Vec<Vec<u8>> {
    let trees = gather(&decode(cover).expect("a cover"));
    let alter = |change: &mut dyn FnMut(&mut Vec<Tree>)| {
        let mut trees = trees.clone();
        change(&mut trees);
        encode(&trees)
    };
    let mut covers = vec![cover[..cover.len() - 1].to_vec()];
    for j in 1..trees.len() {
        covers.push(alter(&mut |trees| trees.swap(j - 1, j)));
        covers.push(alter(&mut |trees| {
            trees.swap(j - 1, j);
            let start = trees[j].start;
            trees[j].start = std::mem::replace(&mut trees[j - 1].start, start);
        }));
    }
    let tree = random.below(trees.len());
    covers.push(alter(&mut |trees| trees[tree].start = random.below(n + 1)));
    covers.push(alter(&mut |trees| trees[tree].edges.push(random.below(m + 1))));
    covers.push(alter(&mut |trees| trees[tree].edges.truncate(1)));
    covers.push(alter(&mut |trees| trees.truncate(trees.len() - 1)));
    covers.push(alter(&mut |trees| trees.push(trees[0].clone())));
    covers
}

/// Made graphs of up to so many vertices, each with a list for up to so many vans, and, every third, with classes.
fn made(seed: u64, turns: usize, vertices: usize, trees: usize) -> Met {
    let (mut random, mut met) = (Random::new(seed), [[0; 64]; 3]);
    for turn in 0..turns {
        let (n, k) = (random.between(1, vertices), random.between(1, trees));
        let m = random.below(4 * n + 2);
        let most = [3, 40, 500_000][random.below(3)];
        let graph = random.any_graph(n, m, most);
        let (sheet, list) = (graph.to_sheet(), vans(&mut random, n, k));
        let classes: Vec<u8> = graph.edges.iter().map(|_| random.below(64) as u8).collect();
        let classes = (turn % 3 == 0).then_some(&classes[..]);
        let brought = Brought { sheet: &sheet, classes, vans: Some(&list) };
        let rooted = Put { kind: Kind::Rooted, k, brought };
        let sum = graph.total() as usize;
        let limits = [0, 1, sum, random.below(sum + 2), random.below(sum / k + 2)];
        for limit in limits.into_iter().map(|limit| Some(limit as u64)).chain([None]) {
            rooted.plan(limit, BUFFER + turn % 3, &mut met);
        }
        if let Some((limit, cover)) = rooted.best() {
            for limit in [limit.saturating_sub(1), limit / 2, limit * 3 / 4, limit] {
                rooted.plan(Some(limit), BUFFER, &mut met);
            }
            rooted.file(&cover, &mut met);
            let altered = altered(&mut random, &cover, n, graph.edges.len());
            altered.iter().for_each(|cover| rooted.file(cover, &mut met));
        }
        // Without roots the list is not read, right or wrong.
        let vans = Some(&list[..random.below(list.len() + 1)]);
        let unrooted = Put { kind: Kind::Unrooted, k, brought: Brought { vans, ..brought } };
        unrooted.plan(None, BUFFER, &mut met);
        unrooted.plan(Some(random.below(sum + 2) as u64), BUFFER, &mut met);
        unrooted.best().iter().for_each(|(_, cover)| unrooted.file(cover, &mut met));
    }
    met
}

#[test]
fn small_graphs() {
    let met = made(51, 2_500, 9, 6);
    assert_met(&met[0], &[0, 1, 2, 3, 4]);
    assert_met(&met[1], &[0, 31, 32, 33, 34, 35]);
    assert_met(&met[2], &[0, 31, 32, 33, 34, 35, 51, 52]);
}

/// Far more vans than vertices.
#[test]
fn few_vertices() {
    let met = made(52, 300, 4, 32);
    assert_met(&met[0], &[0, 1, 4]);
}

#[test]
fn middling_graphs() {
    assert_met(&made(53, 300, 60, 12)[0], &[0, 1, 2, 3, 4]);
}

/// Graphs of full size, the lists that are measured among them.
#[test]
fn full_size() {
    let (size, mut met) = (SIZES[0], [[0; 64]; 3]);
    let mut random = Random::new(54);
    for (shape, list) in [
        (Shape::Random, spread(&size)),
        (Shape::Random, together(&size)),
        (Shape::Grid, vans(&mut random, size.n, size.k)),
        (Shape::Path, together(&size)),
        (Shape::Star, spread(&size)),
    ] {
        let sheet = sheet(shape, &size);
        let brought = Brought { vans: Some(&list), ..Brought::plain(&sheet) };
        let put = Put { kind: Kind::Rooted, k: size.k, brought };
        put.plan(None, BUFFER, &mut met);
        for limit in [0, 1_000, 1_000_000, 8_000_000] {
            put.plan(Some(limit), BUFFER, &mut met);
        }
        put.file(&put.best().expect("a joined graph").1, &mut met);
    }
    assert_met(&met[0], &[0, 1, 2]);
    assert_eq!(met[1][0], 5);
}

/// The lists that are measured have what they are measured for.
#[test]
fn measured_lists() {
    for size in [Size { n: 64, m: 512, k: 8 }, Size { n: 256, m: 2_048, k: 32 }] {
        let vertices = |list: Vec<u8>| {
            let mut vans: Vec<[u8; 2]> = list.chunks_exact(2).map(|van| [van[0], van[1]]).collect();
            assert_eq!(vans.len(), size.k);
            vans.sort_unstable();
            vans.dedup();
            vans.len()
        };
        let apart = vertices(spread(&size));
        assert!(size.k / 2 <= apart && apart < size.k, "{apart} vertices");
        assert_eq!(vertices(together(&size)), 1);
    }
}
