//! What a question with a number of trials is refused with: 56, last of all, and what comes before it; wrong lists and altered
//! bytes. Nothing is written then: `judged` holds every value and every byte to what they were.

use super::{followed, plain};
use crate::common::call::{call, Asked, Question, Through, CLASSES, VANS};
use crate::common::judged::judged;
use crate::sheets::sheet_n;
use planner::BUFFER;
use reference::graph::{read, sheet};
use reference::made_shapes::damaged_sheets;
use reference::random::Random;

/// Numbers of trials that are refused, some of which have lower bytes that are not.
const WRONG: [usize; 9] =
    [0, 1, 34, 256 + 2, 65_536 + 33, 1 << 32, (1 << 32) + 2, usize::MAX - 33, usize::MAX];

/// A question on sheet N for two trees, with classes and vans.
fn listed<'a>(kind: u32, trials: usize, sheet: &'a [u8]) -> Question<'a> {
    let (classes, vans) = (Some(&[10, 20, 40][..]), Some(&[3, 0, 0, 0][..]));
    Question { classes, vans, ..plain(kind, 2, trials, sheet) }
}

/// The same question with another length of the buffer.
fn with_room<'a>(question: &Question<'a>, room: usize) -> Question<'a> {
    match question.asked {
        Asked::Within { trials, .. } => {
            Question { asked: Asked::Within { trials, room }, ..*question }
        }
        _ => *question,
    }
}

/// 56 exactly for what is outside 2 to 33, with no list, with one and with both; also where there is no cover.
#[test]
fn wrong_numbers_of_trials() {
    let mut random = Random::new(80);
    let (n, apart) = (sheet_n([3, 3, 5]), sheet(4, &[(0, 1, 3), (1, 0, 3), (2, 3, 5)]));
    for (kind, trials) in
        [0, 1].into_iter().flat_map(|kind| (2..=33).chain(WRONG).map(move |p| (kind, p)))
    {
        let is_wrong = !(2..=33).contains(&trials);
        let both = listed(kind, trials, &n);
        let (manned, classed) =
            (Question { classes: None, ..both }, Question { vans: None, ..both });
        for question in [both, manned, classed, Question { classes: None, ..classed }] {
            let said = followed(&mut random, &question);
            assert_eq!(said == 56, is_wrong, "trials {trials}");
            assert!(is_wrong || [0, 5].contains(&said), "trials {trials}");
        }
        let due = if is_wrong { 56 } else { 4 };
        for question in [plain(kind, 1, trials, &apart), plain(kind, 1, trials, &[2, 0, 0, 0])] {
            assert_eq!(judged(&mut random, &question), due, "trials {trials}");
        }
    }
}

/// Everything wrong at once, then one fault less after the other: 11 to 16, 53, 54, 21, 55, 23, and at last 56. A number of
/// trials that is right beside them alters nothing of what comes before. Beside an unrooted question vans are no fault.
#[test]
fn numbers_in_their_order() {
    let mut random = Random::new(81);
    let (good, heavy, too_heavy) = ([3, 3, 5], [1_000_000, 3, 5], [1_000_000, 3, 1_000_001]);
    let wrong_vans: [&[u8]; 5] = [&[], &[3, 0, 0], &[4, 0, 0, 0], &[3, 0, 0, 1], &[3; 6]];
    for (kind, trials) in
        [0, 1].into_iter().flat_map(|kind| [2, 33].into_iter().chain(WRONG).map(move |p| (kind, p)))
    {
        let mut said = |sheet: &[u8], classes: &[u8], k, vans: &[u8], room| {
            let (classes, vans) = (Some(classes), Some(vans));
            let question = Question { k, classes, vans, ..listed(kind, trials, sheet) };
            judged(&mut random, &with_room(&question, room))
        };
        for vans in wrong_vans {
            for sheet in damaged_sheets() {
                let due = u32::from(read(&sheet).expect_err("a damaged sheet"));
                assert_eq!(said(&sheet, &[40; 4], 33, vans, 0), due);
            }
            assert_eq!(said(&sheet_n(too_heavy), &[40; 2], 33, vans, 0), 16);
            assert_eq!(said(&sheet_n(heavy), &[40; 2], 33, vans, 0), 53);
            assert_eq!(said(&sheet_n(heavy), &[40; 3], 33, vans, 0), 54);
            assert_eq!(said(&sheet_n(good), &[40; 3], 33, vans, 0), 21);
            let due = if kind == 0 { 55 } else { 23 };
            assert_eq!(said(&sheet_n(good), &[40; 3], 2, vans, 0), due);
        }
        let mut behind = |room| said(&sheet_n(good), &[40; 3], 2, &[3, 0, 0, 0], room);
        assert_eq!([0, 1, BUFFER - 1].map(&mut behind), [23; 3]);
        let is_wrong = !(2..=33).contains(&trials);
        for room in [BUFFER, BUFFER + 1, 2 * BUFFER] {
            assert_eq!(behind(room) == 56, is_wrong, "trials {trials}");
        }
    }
}

/// One fault alone beside a wrong number of trials, and beside a right one: the fault's number both times.
#[test]
fn one_fault_beside_the_number_of_trials() {
    let mut random = Random::new(82);
    let (n, heavy) = (sheet_n([3, 3, 5]), sheet_n([3, 500_001, 5]));
    let longer = [&n[..], &[0]].concat();
    for trials in [2, 5, 33].into_iter().chain(WRONG) {
        let right = listed(0, trials, &n);
        let plain = Question { classes: None, vans: None, ..right };
        let rows = [
            (Question { sheet: &longer, ..right }, 11),
            (Question { classes: Some(&[40; 4]), ..right }, 53),
            (Question { classes: Some(&[]), ..right }, 53),
            (Question { sheet: &heavy, classes: Some(&[40; 3]), ..right }, 54),
            (Question { k: 0, vans: Some(&[]), ..right }, 21),
            (Question { k: 33, ..right }, 21),
            (Question { k: (1 << 32) + 2, ..right }, 21),
            (Question { k: 5, ..plain }, 21),
            (Question { kind: 1, k: 33, ..right }, 21),
            (Question { vans: Some(&[3, 0]), ..right }, 55),
            (Question { vans: Some(&[]), ..right }, 55),
            (Question { vans: Some(&[3, 0, 4, 0]), ..right }, 55),
            (with_room(&right, BUFFER - 1), 23),
            (with_room(&Question { kind: 1, ..plain }, 0), 23),
        ];
        for (question, due) in rows {
            assert_eq!(judged(&mut random, &question), due, "trials {trials}");
        }
    }
}

/// Class bytes in the place of vans and the other way round.
#[test]
fn lists_that_are_exchanged() {
    let mut random = Random::new(83);
    let star = sheet(5, &[(0, 1, 1), (0, 2, 1), (0, 3, 1), (0, 4, 1)]);
    let three = sheet_n([3, 3, 5]);
    let vans = &[3, 0, 0, 0][..];
    // Two vans have four bytes: for three edges the vans are too many classes; 20, and 256, are no vertices of the star.
    let rows: [(&[u8], &[u8], Option<u32>); 4] = [
        (&three, &[10, 20, 40], Some(53)),
        (&star, &[20, 0, 0, 0], Some(55)),
        (&star, &[1, 0, 0, 1], Some(55)),
        (&star, &[4, 0, 1, 0], None),
    ];
    for ((sheet, classes, refused), trials) in
        rows.into_iter().flat_map(|row| [2, 3, 33, 34].map(|trials| (row, trials)))
    {
        let mut said = |classes, vans| {
            let (classes, vans) = (Some(classes), Some(vans));
            followed(&mut random, &Question { classes, vans, ..plain(0, 2, trials, sheet) })
        };
        let right = said(classes, vans);
        assert_eq!(right == 56, trials == 34);
        match refused {
            Some(number) => assert_eq!(said(vans, classes), number, "{classes:?}"),
            None => assert!([0, 5, right].contains(&said(vans, classes)), "{classes:?}"),
        }
    }
}

/// Each list is brought by its own bit, and what is not brought is not read.
#[test]
fn the_bits_of_the_lists() {
    let sheet = sheet_n([3, 3, 5]);
    let question = plain(0, 2, 2, &sheet);
    let said = |brought, classes, vans| {
        let got = call(84, &question, Through::General { brought, classes, vans });
        (got.case, (got.case == 5).then_some(got.values.1[0]))
    };
    // Class 40 doubles the sum of 11.
    for other in [0, 4, 8, 252, 256, 512, 1 << 16, 1 << 31, !3] {
        assert_eq!(said(other, &[], &[]), (5, Some(11)), "bits {other}");
        assert_eq!(said(other | CLASSES, &[40; 3], &[9; 5]), (5, Some(22)), "bits {other}");
        assert_eq!(said(other | CLASSES, &[40; 2], &[]).0, 53, "bits {other}");
        assert_eq!(said(other | VANS, &[40; 2], &[3, 0, 3, 0]), (5, Some(11)), "bits {other}");
        assert_eq!(said(other | VANS, &[], &[9; 4]).0, 55, "bits {other}");
        let both = other | CLASSES | VANS;
        assert_eq!(said(both, &[40; 3], &[3, 0, 3, 0]), (5, Some(22)), "bits {both}");
        assert_eq!((said(both, &[], &[]).0, said(both, &[40; 3], &[]).0), (53, 55));
    }
}

/// Each byte of a sheet and its lists set to every other number, one at a time: answered as the reference allows.
#[test]
fn any_byte_altered() {
    let mut random = Random::new(85);
    let (sheet, classes, vans) = (sheet_n([3, 0, 5]), [10, 20, 40], [3, 0, 0, 0, 3, 0]);
    let ends = [sheet.len(), sheet.len() + classes.len()];
    let whole = [&sheet[..], &classes, &vans].concat();
    let places = 0..whole.len();
    let mut met = [0; 64];
    for (place, byte) in places.flat_map(|place| (0..=255).map(move |byte| (place, byte))) {
        let mut altered = whole.clone();
        altered[place] = byte;
        let (classes, vans) = (Some(&altered[ends[0]..ends[1]]), Some(&altered[ends[1]..]));
        for (kind, trials) in [(0, 3), (0, 33), (1, 4), (1, 34)] {
            let question =
                Question { classes, vans, ..plain(kind, 3, trials, &altered[..ends[0]]) };
            met[judged(&mut random, &question) as usize] += 1;
        }
    }
    for case in [0, 4, 5, 11, 12, 14, 15, 16, 54, 55, 56] {
        assert!(met[case] > 0, "case {case} is not met: {met:?}");
    }
}
