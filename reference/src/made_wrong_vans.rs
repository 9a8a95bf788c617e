//! Records whose list of vans is refused with 55, alone and with other numbers beside it, those next to them whose list is
//! right, and wrong lists beside an unrooted question, which leaves them unread.

use crate::cover::{encode as cover_bytes, Tree};
use crate::districts::{Asked, Record};
use crate::graph::sheet;
use crate::made_records::{at, best_of, check_of, BOTH};
use crate::made_shapes::damaged_sheets;
use crate::made_wrong_lists::askings;
use crate::question::{Kind, BUFFER, LIMIT};
use crate::vans::bytes;

/// Every such record.
pub fn wrong_vans() -> Vec<Record> {
    let mut all = beside_every_number();
    all.extend(beside_wrong_counts());
    all.extend(beside_more_vans_than_vertices());
    all.extend(beside_wrong_sheets());
    all.extend(beside_wrong_classes());
    all.extend(beside_an_unrooted_question());
    all.extend(of_256_vertices());
    all
}

/// Lists for 2 vans on 4 vertices, by their bytes: two right ones, then wrong lengths, then wrong vertices.
const LISTS: [&[u8]; 14] = [
    &[0, 0, 1, 0],
    &[3, 0, 3, 0],
    &[],
    &[1],
    &[1, 0],
    &[0, 0, 1],
    &[0, 0, 1, 0, 0],
    &[0, 0, 1, 0, 2, 0],
    &[4, 0, 0, 0],
    &[0, 0, 4, 0],
    &[255, 255, 1, 0],
    &[0, 0, 255, 255],
    // 256, which is 0 by its low byte and 1 by its high byte.
    &[0, 0, 0, 1],
    &[0, 1, 0, 0],
];

/// Sheet N of document 01.
fn sheet_n() -> Vec<u8> {
    sheet(4, &[(0, 2, 3), (2, 3, 3), (1, 3, 5)])
}

/// Each list with every question, right and refused with 22, 23 and 31 to 35.
fn beside_every_number() -> Vec<Record> {
    let mut all = Vec::new();
    for list in LISTS {
        let put = |asked| Record::plain(asked, Kind::Rooted, 2, &sheet_n()).with_vans(list);
        all.extend(askings().into_iter().map(put));
    }
    all
}

/// Each list with a k that is refused with 21; and lists that would be right for such a k.
fn beside_wrong_counts() -> Vec<Record> {
    let refused = [
        (0, Asked::Best { room: BUFFER }),
        (33, Asked::Trial { limit: LIMIT + 1, room: BUFFER }),
        (33, Asked::Check { cover: vec![] }),
    ];
    let mut all = Vec::new();
    for (k, asked) in refused {
        let of_k = bytes(&vec![1; k]);
        for list in LISTS.into_iter().step_by(2).chain((k > 0).then_some(&of_k[..])) {
            let record = Record::plain(asked.clone(), Kind::Rooted, k, &sheet_n());
            all.push(record.with_vans(list));
        }
    }
    all
}

/// Three vans on two vertices: right lists, wrong lists, which are 55 and not 21, and none.
fn beside_more_vans_than_vertices() -> Vec<Record> {
    let edge = sheet(2, &[(0, 1, 5)]);
    let lists = [
        Some(vec![1, 1, 0]),
        Some(vec![0, 0, 0]),
        Some(vec![0, 1]),
        Some(vec![0, 1, 0, 1]),
        Some(vec![0, 1, 2]),
        Some(vec![]),
        None,
    ];
    let mut all = Vec::new();
    for vans in lists {
        let starts = vans.clone().unwrap_or(vec![0, 1, 2]);
        let lines = |j: usize| if j == 0 { vec![0] } else { vec![] };
        let tree = |(j, &van): (usize, &usize)| Tree::new(van, lines(j));
        let cover = cover_bytes(&starts.iter().enumerate().map(tree).collect::<Vec<_>>());
        let records = [
            at(Kind::Rooted, 3, 5, &edge),
            best_of(Kind::Rooted, 3, &edge),
            check_of(Kind::Rooted, 3, &edge, cover),
        ];
        let with = |record: Record| Record { vans: vans.as_deref().map(bytes), ..record };
        all.extend(records.map(with));
    }
    all
}

/// Sheets refused with 11 to 16, the largest once, and lists that are then not read.
fn beside_wrong_sheets() -> Vec<Record> {
    let mut all = Vec::new();
    for (i, sheet) in damaged_sheets().iter().enumerate() {
        let list = [&[][..], &[9, 0], &[0, 0]][i % 3];
        all.push(at(Kind::Rooted, 1, 1, sheet).with_vans(list));
        if sheet.len() > 1_000 {
            continue;
        }
        all.push(match i % 2 {
            0 => best_of(Kind::Rooted, 1, sheet).with_vans(&[9]),
            _ => check_of(Kind::Rooted, 1, sheet, vec![]).with_vans(&[0, 0, 0]),
        });
    }
    all
}

/// Lists of classes refused with 53 and 54 and right ones, each beside right and wrong vans, for 2 trees and for 33.
fn beside_wrong_classes() -> Vec<Record> {
    let heavy = sheet(4, &[(0, 2, 500_001), (2, 3, 3), (1, 3, 5)]);
    let rows: [(Vec<u8>, &[u8]); 3] =
        [(sheet_n(), &[0, 10]), (heavy, &[40, 0, 0]), (sheet_n(), &[40, 0, 20])];
    let mut all = Vec::new();
    for (sheet, classes) in rows {
        for (list, k) in [(1, 2), (4, 2), (9, 2), (1, 33), (4, 33)] {
            let records = [
                at(Kind::Rooted, k, LIMIT + 1, &sheet),
                best_of(Kind::Rooted, k, &sheet),
                check_of(Kind::Rooted, k, &sheet, vec![2, 0, 0]),
            ];
            let with = |record: Record| record.with_classes(classes).with_vans(LISTS[list]);
            all.extend(records.map(with));
        }
    }
    all
}

/// Each list beside unrooted questions: answered as without it.
fn beside_an_unrooted_question() -> Vec<Record> {
    let alone = |start: usize| Tree::new(start, vec![]);
    let cover = cover_bytes(&[Tree::new(2, vec![0, 1]), alone(1)]);
    let mut all = Vec::new();
    for list in LISTS {
        let records = [
            at(Kind::Unrooted, 2, 6, &sheet_n()),
            best_of(Kind::Unrooted, 2, &sheet_n()),
            check_of(Kind::Unrooted, 2, &sheet_n(), cover.clone()),
        ];
        all.extend(records.map(|record| record.with_vans(list)));
    }
    all.push(at(Kind::Unrooted, 33, 6, &sheet_n()).with_vans(&[]));
    all.push(at(Kind::Unrooted, 2, LIMIT + 1, &sheet_n()).with_vans(&[]));
    all
}

/// 256 vertices and 32 vans, with vertices 255, 256 and 65,535 in the first place and the last; lists short and long by one.
fn of_256_vertices() -> Vec<Record> {
    let bare = sheet(256, &[]);
    let mut all = Vec::new();
    for (place, vertex) in [0, 31].into_iter().flat_map(|i| [255, 256, 65_535].map(|v| (i, v))) {
        let mut vans: Vec<usize> = (100..132).collect();
        vans[place] = vertex;
        all.push(at(Kind::Rooted, 32, 0, &bare).with_vans(&bytes(&vans)));
    }
    for k in [31, 33] {
        all.push(best_of(Kind::Rooted, 32, &bare).with_vans(&bytes(&vec![255; k])));
    }
    all.extend(BOTH.map(|kind| best_of(kind, 32, &bare).with_vans(&bytes(&[255; 32]))));
    all
}
