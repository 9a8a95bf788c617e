//! The quick version against `reference/` with lists of vans that are wrong, beside every other number that a question may get,
//! before 55 and after it; and with the list of 0 to k - 1, which must give what no list gives.

mod held;
mod put;

use bench::question::{Question, BUFFER, LIMIT};
use bench::{best::best, check::check, trial::trial};
use held::{question, FILL, VALUE};
use put::{assert_met, listed, Met, Put};
use reference::brought::Brought;
use reference::cover::{encode, filed_length, Tree};
use reference::graph::sheet;
use reference::question::Kind;
use reference::random::Random;

/// Lists that are wrong for k trees on n vertices: by their length, by a vertex at either end, by a high byte.
fn wrong(right: &[u8], n: usize) -> Vec<Vec<u8>> {
    let mut lists = vec![Vec::new(), vec![0], [right, &[0]].concat(), [right, &[0, 0]].concat()];
    if right.len() >= 2 {
        lists.push(right[..right.len() - 1].to_vec());
        lists.push(right[..right.len() - 2].to_vec());
        for at in [0, right.len() - 2] {
            for vertex in [n, 256, u16::MAX as usize] {
                let mut list = right.to_vec();
                list[at..at + 2].copy_from_slice(&(vertex as u16).to_le_bytes());
                lists.push(list);
            }
        }
    }
    lists
}

/// Sheets of four vertices and three edges, the first right, the others with the numbers 11 to 16.
fn sheets() -> Vec<Vec<u8>> {
    let right = [(0, 2, 600_000), (2, 3, 3), (1, 3, 5)];
    let with = |edge| sheet(4, &[right[0], edge, right[2]]);
    let many = vec![(0, 1, 1); 2_049];
    vec![
        sheet(4, &right),
        sheet(4, &right)[..27].to_vec(),
        sheet(0, &[]),
        sheet(257, &right),
        sheet(4, &many),
        with((4, 1, 3)),
        with((2, 2, 3)),
        with((2, 3, 1_000_001)),
    ]
}

/// A filing for each number of the check, by trees that start at the vertices of a list: none of them has edges but the first.
fn filings(list: &[u8]) -> Vec<Vec<u8>> {
    let starts: Vec<usize> = list.chunks_exact(2).map(|van| van[0].into()).collect();
    let filed = |starts: &[usize], edges: &[usize]| {
        let edges = |j| if j == 0 { edges.to_vec() } else { Vec::new() };
        let tree = |(j, &start): (usize, &usize)| Tree::new(start, edges(j));
        encode(&starts.iter().enumerate().map(tree).collect::<Vec<_>>())
    };
    let others: Vec<usize> = starts.iter().map(|start| start ^ 1).collect();
    vec![
        filed(&starts, &[0, 1, 2]),
        vec![0; 3],
        filed(&others, &[0, 1, 2]),
        filed(&starts, &[0, 1, 3]),
        filed(&starts, &[0]),
        filed(&starts, &[]),
    ]
}

/// Puts a question at limits, rooms and with filings that are right and wrong.
fn put(put: Put, filings: &[Vec<u8>], met: &mut Met) {
    for (limit, room) in [(700_000, BUFFER), (0, BUFFER), (LIMIT + 1, 0), (LIMIT, BUFFER - 1)] {
        put.plan(Some(limit), room, met);
    }
    put.plan(None, BUFFER, met);
    put.plan(None, BUFFER - 1, met);
    filings.iter().for_each(|cover| put.file(cover, met));
}

#[test]
fn wrong_lists_get_55_in_its_turn() {
    let mut met = [[0; 64]; 3];
    let class_lists = [None, Some(&[0u8, 10, 60][..]), Some(&[0; 2]), Some(&[40; 3])];
    for sheet in sheets() {
        for k in [0, 1, 3, 4, 5, 32, 33, usize::MAX] {
            let right = listed((0..k.min(33)).map(|j| 3 - j % 4));
            let filings = filings(&right);
            for list in wrong(&right, 4).iter().chain([&right]) {
                for classes in class_lists {
                    let brought = Brought { sheet: &sheet, classes, vans: Some(list) };
                    for kind in [Kind::Rooted, Kind::Unrooted] {
                        put(Put { kind, k, brought }, &filings, &mut met);
                    }
                }
            }
        }
    }
    assert_met(&met[0], &[0, 1, 3, 11, 12, 13, 14, 15, 16, 53, 54, 21, 55, 22, 23]);
    assert_met(&met[1], &[0, 11, 12, 13, 14, 15, 16, 53, 54, 21, 55, 31, 32, 33, 34, 35]);
    assert_met(&met[2], &[0, 11, 16, 53, 54, 21, 55, 31, 32, 33, 34, 35, 51, 52]);
}

/// Everything that is answered to a question: the numbers, values and bytes of trials, of the best limit and of its check.
fn all_of(question: Question, limits: &[u64]) -> Vec<(u32, [u64; 3], Vec<u8>)> {
    let fresh = || ([VALUE; 3], vec![FILL; BUFFER]);
    let mut got = Vec::new();
    for &limit in limits {
        let (mut values, mut buffer) = fresh();
        got.push((trial(question, limit, &mut values, &mut buffer), values, buffer));
    }
    let (mut values, mut buffer) = fresh();
    got.push((best(question, &mut values, &mut buffer), values, buffer.clone()));
    let length = filed_length(&buffer).expect("four bytes").min(BUFFER);
    let (mut values, rest) = fresh();
    got.push((check(question, &buffer[..length], &mut values), values, rest));
    got
}

#[test]
fn the_list_of_the_first_vertices_is_as_no_list() {
    let mut random = Random::new(55);
    for turn in 0..400 {
        let n = random.between(1, 40);
        let k = random.between(1, n.min(32));
        let m = random.below(3 * n);
        let graph = random.any_graph(n, m, [4, 1_000][turn % 2]);
        let sum = graph.total() as usize;
        let limits = [0, 1, random.below(sum + 1), random.below(sum / k + 1)].map(|b| b as u64);
        let (sheet, list) = (graph.to_sheet(), listed(0..k));
        let without = question(Kind::Rooted, k, Brought::plain(&sheet));
        let with = Question { vans: Some(&list), ..without };
        assert!(all_of(with, &limits) == all_of(without, &limits), "n {n} k {k} {:?}", graph.edges);
    }
}

/// k above n without a list is 21, with one it is not: 32 vans at the only vertex there is.
#[test]
fn more_vans_than_vertices() {
    let (sheet, list, mut met) = (sheet(1, &[]), vec![0; 64], [[0; 64]; 3]);
    for (vans, number) in [(None, 21), (Some(&list[..]), 0), (Some(&list[..62]), 55)] {
        let brought = Brought { vans, ..Brought::plain(&sheet) };
        let put = Put { kind: Kind::Rooted, k: 32, brought };
        put.plan(Some(0), BUFFER, &mut met);
        put.plan(None, BUFFER, &mut met);
        assert_eq!(met[0][number], 2);
        assert_eq!(put.best().is_some(), number == 0);
        put.best().iter().for_each(|(_, cover)| put.file(cover, &mut met));
    }
    assert_eq!(met[1][0], 1);
}
