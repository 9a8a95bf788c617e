//! Covers read from bytes: those of document 01, as the library writes them and as they are filed, and made bytes.

use planner::{best, check, trial, Cover, Kind, Reply, Tree, BUFFER};
use reference::graph::sheet;
use reference::random::Random;

/// Trees by their starts and edges, and the entries (tree, line) of a filing.
type Trees = &'static [(usize, &'static [usize])];
type Entries = &'static [(u16, u16)];

/// A trial with what it is answered: kind, k, limit, graph; heaviest weight and number of trees; trees.
type Tried<'a> = (Kind, usize, u64, &'a [u8], [u64; 2], Trees);

/// Sheet N of document 01.
fn sheet_n() -> Vec<u8> {
    sheet(4, &[(0, 2, 3), (2, 3, 3), (1, 3, 5)])
}

/// The cover of these trees.
fn cover(trees: Trees) -> Cover {
    let tree = |&(start, edges): &(usize, &[usize])| Tree { start, edges: edges.to_vec() };
    Cover { trees: trees.iter().map(tree).collect() }
}

/// The bytes of a filing, as document 01's "Cover bytes" has them: starts, and entries (tree, line).
fn filing(starts: &[u16], entries: &[(u16, u16)]) -> Vec<u8> {
    let counts = [starts.len() as u16, entries.len() as u16];
    let trees = entries.iter().map(|entry| entry.0);
    let lines = entries.iter().map(|entry| entry.1);
    let numbers = counts.into_iter().chain(starts.iter().copied()).chain(trees).chain(lines);
    numbers.flat_map(u16::to_le_bytes).collect()
}

/// What is due at the front of the buffer: these trees, in 4 + 2t + 4q bytes.
fn assert_reads(buffer: &[u8], trees: Trees) {
    let entries: usize = trees.iter().map(|tree| tree.1.len()).sum();
    assert_eq!(Cover::length(buffer), Some(4 + 2 * trees.len() + 4 * entries));
    assert_eq!(Cover::read(buffer), Some(cover(trees)));
}

/// "The program `rounds`", and the rows of "Small districts" whose trees the rules fix.
#[test]
fn the_covers_of_small_districts() {
    let n = sheet_n();
    let one = sheet(1, &[]);
    let rows: [Tried; 5] = [
        // "tree 0 6 0 1", "tree 1 0".
        (Kind::Rooted, 2, 4, &n, [6, 2], &[(0, &[0, 1]), (1, &[])]),
        // "B 7, heaviest 6": no part, all is left at yard 0.
        (Kind::Rooted, 2, 7, &n, [6, 2], &[(0, &[0, 1]), (1, &[])]),
        // "k 3, B 3, two trees, heaviest 6".
        (Kind::Unrooted, 3, 3, &n, [6, 2], &[(0, &[0, 1]), (1, &[])]),
        // "B 0: .. k 4 gives 0".
        (Kind::Unrooted, 4, 0, &n, [0, 4], &[(0, &[]), (1, &[]), (2, &[]), (3, &[])]),
        // "n 1, m 0, k 1, B 0: heaviest 0".
        (Kind::Rooted, 1, 0, &one, [0, 1], &[(0, &[])]),
    ];
    for (kind, k, limit, graph, [heaviest, count], trees) in rows {
        let mut buffer = [255; BUFFER];
        let due = Reply::Cover { limit, heaviest, trees: count };
        assert_eq!(trial(kind, k, limit, graph, &mut buffer), due);
        assert_reads(&buffer, trees);
        let length = Cover::length(&buffer).unwrap();
        assert_eq!(check(kind, k, graph, &buffer[..length]), Ok(heaviest));
    }
}

/// "Best: limit 4, heaviest 6" with yards, k 2; "k 1, best: limit 6, heaviest 11" without.
#[test]
fn the_covers_of_the_best_limit() {
    let n = sheet_n();
    let mut buffer = [255; BUFFER];
    let due = Reply::Cover { limit: 4, heaviest: 6, trees: 2 };
    assert_eq!(best(Kind::Rooted, 2, &n, &mut buffer), due);
    assert_reads(&buffer, &[(0, &[0, 1]), (1, &[])]);
    let due = Reply::Cover { limit: 6, heaviest: 11, trees: 1 };
    assert_eq!(best(Kind::Unrooted, 1, &n, &mut buffer), due);
    assert_reads(&buffer, &[(0, &[0, 1, 2])]);
}

/// "B 3, too low, parts 2 (lines 0; 1), yards 1": line 0 is split off at stop 0, line 1 at stop 2.
#[test]
fn the_parts_of_too_low() {
    let mut buffer = [255; BUFFER];
    let due = Reply::TooLowParts { parts: 2, roots: 1 };
    assert_eq!(trial(Kind::Rooted, 2, 3, &sheet_n(), &mut buffer), due);
    assert_reads(&buffer, &[(0, &[0]), (2, &[1])]);
}

/// "Check on N, yards, k 2, entries (tree, line)": whatever is in order is read, a cover or not.
#[test]
fn the_filings_of_small_districts() {
    let n = sheet_n();
    let rows: [(Entries, Result<u64, u32>, Option<Cover>); 4] = [
        (&[(0, 0), (0, 1)], Ok(6), Some(cover(&[(0, &[0, 1]), (1, &[])]))),
        (&[(0, 1), (0, 0)], Err(33), None),
        (&[(0, 0), (1, 1)], Err(34), Some(cover(&[(0, &[0]), (1, &[1])]))),
        (&[(0, 0)], Err(35), Some(cover(&[(0, &[0]), (1, &[])]))),
    ];
    for (entries, verdict, read) in rows {
        let bytes = filing(&[0, 1], entries);
        assert_eq!(check(Kind::Rooted, 2, &n, &bytes), verdict);
        assert_eq!(Cover::read(&bytes), read);
    }
}

/// Numbers 31 and 33: too few bytes, an entry's tree not below t, an entry twice, a tree before a lower one.
#[test]
fn no_cover_is_read_from_faulty_bytes() {
    let whole = filing(&[0, 1], &[(0, 0), (0, 1)]);
    for length in 0..whole.len() {
        assert_eq!(Cover::length(&whole[..length]), None);
        assert_eq!(Cover::read(&whole[..length]), None);
    }
    for entries in [[(0, 0), (2, 1)], [(0, 0), (0, 0)], [(1, 0), (0, 1)]] {
        assert_eq!(Cover::read(&filing(&[0, 1], &entries)), None);
    }
    assert_eq!(Cover::read(&[255; BUFFER]), None);
}

/// Made bytes of small and of any numbers: what is read, filed again, gives the bytes back.
#[test]
fn any_bytes_are_read_or_not() {
    let mut random = Random::new(11);
    let mut read = 0;
    for _ in 0..200_000 {
        let numbers = random.below(12);
        let most = [1, 2, 3, 6, 256][random.below(5)];
        let high = if random.below(8) == 0 { 256 } else { 1 };
        let field = |random: &mut Random| [random.below(most) as u8, random.below(high) as u8];
        let mut bytes: Vec<u8> = (0..numbers).flat_map(|_| field(&mut random)).collect();
        bytes.truncate(bytes.len().saturating_sub(random.below(2)));
        let Some(cover) = Cover::read(&bytes) else { continue };
        let starts: Vec<u16> = cover.trees.iter().map(|tree| tree.start as u16).collect();
        let of_tree = |(at, tree): (usize, &Tree)| {
            tree.edges.iter().map(|&edge| (at as u16, edge as u16)).collect::<Vec<_>>()
        };
        let entries: Vec<(u16, u16)> = cover.trees.iter().enumerate().flat_map(of_tree).collect();
        let front = filing(&starts, &entries);
        assert_eq!(Cover::length(&bytes), Some(front.len()));
        assert_eq!(bytes[..front.len()], front);
        read += usize::from(!entries.is_empty());
    }
    assert!(read > 1_000, "only {read} with entries are read");
}
