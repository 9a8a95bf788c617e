//! Records whose list of classes is refused with 53 or 54, alone and with other numbers beside it, and those next to them
//! whose list is right.

use crate::cover::{encode as cover_bytes, Tree};
use crate::districts::{Asked, Record};
use crate::graph::sheet;
use crate::made_records::{at, best_of, check_of, BOTH};
use crate::made_shapes::damaged_sheets;
use crate::question::{BUFFER, LIMIT};

/// Every such record.
pub fn wrong_lists() -> Vec<Record> {
    let mut all = beside_every_number();
    all.extend(beside_wrong_sheets());
    all.extend(beside_no_edges());
    all.extend(of_full_size());
    all
}

/// The weights of the three edges of a sheet, and a list of classes.
type Row = ([u64; 3], &'static [u8]);

const ROWS: [Row; 18] = [
    ([3, 3, 5], &[0, 10, 20]),
    ([3, 3, 5], &[]),
    ([3, 3, 5], &[0, 10]),
    ([3, 3, 5], &[0, 10, 20, 0]),
    ([3, 3, 5], &[40; 259]),
    // The highest weights that pass, and those one higher at either end of the list.
    ([833_333, 666_666, 500_000], &[19, 39, 59]),
    ([1_000_000; 3], &[9, 60, 255]),
    ([833_334, 3, 5], &[10, 0, 0]),
    ([3, 3, 666_667], &[0, 0, 20]),
    // An adjusted weight that is too high in a list that is too short, or too long.
    ([1_000_000, 3, 5], &[40, 0]),
    ([1_000_000, 3, 5], &[40, 0, 0, 40]),
    // Weights that are refused as given.
    ([1_000_001, 3, 5], &[0, 0]),
    ([3, 3, 1_000_001], &[10, 10, 10]),
    ([1_000_000, 3, 1_000_001], &[40, 0, 0]),
    // Weightless edges: any class does, and none makes a wrong list right.
    ([0, 0, 0], &[19, 39, 59]),
    ([3, 0, 0], &[10, 20, 255]),
    ([0, 0, 0], &[40, 40]),
    ([1_000_000, 3, 0], &[40, 0, 0]),
];

/// Each row with every kind of question, right and wrong, for 2 trees, and with some of them for 33.
fn beside_every_number() -> Vec<Record> {
    let mut all = Vec::new();
    for ([a, b, c], classes) in ROWS {
        let sheet = sheet(4, &[(0, 2, a), (2, 3, b), (1, 3, c)]);
        for kind in BOTH {
            let asked = askings().into_iter().map(|asked| (2, asked));
            let refused = [
                Asked::Trial { limit: LIMIT + 1, room: BUFFER },
                Asked::Best { room: 0 },
                Asked::Check { cover: vec![] },
            ];
            for (k, asked) in asked.chain(refused.map(|asked| (33, asked))) {
                all.push(Record::plain(asked, kind, k, &sheet).with_classes(classes));
            }
        }
    }
    all
}

/// Trials, best limits and checks: right, and refused with 22, 23 and 31 to 35.
pub fn askings() -> Vec<Asked> {
    let limit = 1_000_000;
    let tree = |start: usize, edges: &[usize]| Tree { start, edges: edges.to_vec() };
    let good = cover_bytes(&[tree(0, &[0, 1]), tree(1, &[])]);
    let cut = good[..good.len() - 1].to_vec();
    let mut covers = vec![good, cut, cover_bytes(&[tree(4, &[0, 1]), tree(1, &[])])];
    for [first, second] in [[&[1, 0][..], &[]], [&[0], &[1]], [&[0], &[]]] {
        covers.push(cover_bytes(&[tree(0, first), tree(1, second)]));
    }
    let mut all = vec![
        Asked::Trial { limit, room: BUFFER },
        Asked::Trial { limit: LIMIT + 1, room: BUFFER },
        Asked::Trial { limit, room: BUFFER - 1 },
        Asked::Best { room: BUFFER },
        Asked::Best { room: BUFFER - 1 },
    ];
    all.extend(covers.into_iter().map(|cover| Asked::Check { cover }));
    all
}

/// Sheets refused with 11 to 16 and lists of several lengths, which are then not read.
fn beside_wrong_sheets() -> Vec<Record> {
    let mut all = Vec::new();
    for (i, bytes) in damaged_sheets().iter().enumerate() {
        let (kind, other) = (BOTH[i % 2], BOTH[(i + 1) % 2]);
        all.push(at(kind, 1, 1, bytes).with_classes(&[]));
        all.push(best_of(other, 0, bytes).with_classes(&[10]));
        all.push(check_of(kind, 1, bytes, vec![]).with_classes(&[40, 40]));
    }
    all
}

/// Vertices without edges: the list of no bytes is right, every other is wrong.
fn beside_no_edges() -> Vec<Record> {
    let mut all = Vec::new();
    for (n, kind) in BOTH.iter().flat_map(|&kind| [(1, kind), (2, kind)]) {
        let bare = sheet(n, &[]);
        let alone: Vec<Tree> = (0..n).map(|v| Tree::new(v, vec![])).collect();
        for classes in [&[][..], &[0], &[60, 60]] {
            let check = check_of(kind, n, &bare, cover_bytes(&alone));
            let records = [at(kind, 1, 0, &bare), best_of(kind, n, &bare), check];
            all.extend(records.map(|record| record.with_classes(classes)));
        }
    }
    all
}

/// 2,048 edges: lists short and long by one, and one whose last weight alone is too high.
fn of_full_size() -> Vec<Record> {
    let full = sheet(2, &vec![(0, 1, 833_334); 2_048]);
    let last = [vec![0; 2_047], vec![19]].concat();
    let good = cover_bytes(&[Tree::new(0, vec![2_047])]);
    let mut all = Vec::new();
    for (i, classes) in [vec![0; 2_047], vec![0; 2_049], last].iter().enumerate() {
        let (kind, other) = (BOTH[i % 2], BOTH[(i + 1) % 2]);
        all.push(at(kind, 1, 833_334, &full).with_classes(classes));
        all.push(best_of(other, 1, &full).with_classes(classes));
        all.push(check_of(kind, 1, &full, good.clone()).with_classes(classes));
    }
    all
}
