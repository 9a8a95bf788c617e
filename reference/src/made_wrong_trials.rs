//! Records whose number of trials is refused with 56, with every other number beside it, and those next to them whose number
//! of trials is right.

use crate::districts::{Asked, Record};
use crate::graph::sheet;
use crate::made_records::BOTH;
use crate::made_shapes::damaged_sheets;
use crate::made_within::{for_each, within_of};
use crate::question::{Kind, BUFFER};
use crate::vans::bytes;

/// Every such record.
pub fn wrong_trials() -> Vec<Record> {
    let mut all = beside_wrong_sheets();
    all.extend(beside_wrong_classes());
    all.extend(beside_wrong_counts());
    all.extend(beside_wrong_vans());
    all.extend(beside_short_buffers());
    all.extend(beside_all_of_them());
    all
}

/// Three edges, and vertex 0 in the middle of them.
fn star() -> Vec<u8> {
    sheet(4, &[(0, 1, 2), (0, 2, 3), (3, 0, 4)])
}

/// Both kinds of a question for k trees.
fn both(k: usize, sheet: &[u8]) -> [Record; 2] {
    BOTH.map(|kind| within_of(kind, k, 2, sheet))
}

/// The questions with wrong numbers of trials, and with right ones.
fn right_and_wrong(records: impl IntoIterator<Item = Record>) -> Vec<Record> {
    records.into_iter().flat_map(|record| for_each(&record, [1, 2, 33, 34])).collect()
}

/// Sheets refused with 11 to 16, the largest once.
fn beside_wrong_sheets() -> Vec<Record> {
    let mut all = Vec::new();
    for (i, sheet) in damaged_sheets().iter().enumerate() {
        let most = if sheet.len() > 1_000 { 1 } else { 4 };
        let trials = [0, 2, 34, 33].into_iter().take(most);
        all.extend(for_each(&within_of(BOTH[i % 2], 1, 2, sheet), trials));
    }
    all
}

/// Lists of classes refused with 53 and with 54, and a right one.
fn beside_wrong_classes() -> Vec<Record> {
    let heavy = sheet(4, &[(0, 1, 2), (0, 2, 3), (3, 0, 500_001)]);
    let rows: [(Vec<u8>, &[u8]); 5] = [
        (star(), &[]),
        (star(), &[40, 40]),
        (star(), &[40; 4]),
        (heavy, &[0, 0, 40]),
        (star(), &[40, 20, 10]),
    ];
    let listed = rows
        .iter()
        .flat_map(|(sheet, classes)| both(2, sheet).map(|record| record.with_classes(classes)));
    right_and_wrong(listed)
}

/// Counts of trees refused with 21, above n without a list too, and the highest that pass.
fn beside_wrong_counts() -> Vec<Record> {
    let counts = [0, 5, 32, 33, 65_535];
    let mut all = right_and_wrong(counts.iter().flat_map(|&k| both(k, &star())));
    let beside_lists = [(0, 0), (33, 33), (5, 5)];
    let listed = beside_lists
        .map(|(k, vans)| within_of(Kind::Rooted, k, 2, &star()).with_vans(&bytes(&vec![3; vans])));
    all.extend(right_and_wrong(listed));
    all
}

/// Lists of vans refused with 55, which an unrooted question leaves unread.
fn beside_wrong_vans() -> Vec<Record> {
    let lists: [&[u8]; 5] = [&[], &[3, 0, 3], &[3, 0, 3, 0, 3, 0], &[4, 0, 0, 0], &[0, 0, 0, 1]];
    let listed = lists.iter().flat_map(|list| both(2, &star()).map(|r| r.with_vans(list)));
    right_and_wrong(listed)
}

/// Buffers refused with 23, and those that just pass.
fn beside_short_buffers() -> Vec<Record> {
    let bare = sheet(3, &[(0, 1, 1)]);
    let mut all = Vec::new();
    for (room, trials) in [0, BUFFER - 1, BUFFER, 65_535]
        .into_iter()
        .flat_map(|room| [0, 1, 2, 33, 34, 65_538].map(|trials| (room, trials)))
    {
        let asked = Asked::Within { trials, room };
        all.extend(BOTH.map(|kind| Record::plain(asked.clone(), kind, 2, &star())));
        // No cover for one tree; limit 0 for three.
        let (kind, k) = (BOTH[all.len() / 2 % 2], 1 + 2 * (all.len() / 4 % 2));
        all.push(Record::plain(asked, kind, k, &bare));
    }
    all
}

/// Everything wrong at once, and then mended from the front on, so that each number shows with all later ones beside it.
fn beside_all_of_them() -> Vec<Record> {
    let sheets = [sheet(4, &[(0, 1, 1_000_001)]), sheet(4, &[(0, 1, 900_000), (2, 3, 1)])];
    let mut all = Vec::new();
    for (kind, trials) in BOTH.into_iter().flat_map(|kind| [0, 1, 34].map(|p| (kind, p))) {
        let wrong = Asked::Within { trials, room: BUFFER - 1 };
        let of = |sheet: &[u8], classes: &[u8], k, vans: &[u8]| {
            Record::plain(wrong.clone(), kind, k, sheet).with_classes(classes).with_vans(vans)
        };
        all.push(of(&sheets[0], &[40, 40], 33, &[9]));
        all.push(of(&sheets[1], &[40], 33, &[9]));
        all.push(of(&sheets[1], &[40, 40], 33, &[9]));
        all.push(of(&sheets[1], &[0, 40], 33, &[9]));
        all.push(of(&sheets[1], &[0, 40], 1, &[9]));
        all.push(of(&sheets[1], &[0, 40], 1, &[3, 0]));
        let mended = Record { vans: None, ..of(&sheets[1], &[0, 40], 1, &[]) };
        all.push(Record { asked: Asked::Within { trials, room: BUFFER }, ..mended.clone() });
        all.push(Record { asked: Asked::Within { trials: 2, room: BUFFER }, ..mended });
    }
    all
}
