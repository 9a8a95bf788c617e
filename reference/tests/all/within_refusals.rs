//! 56 at each of its causes, behind every other number of the question, with the lent buffer left alone.

use crate::common::vans::list;
use crate::common::{buffer_of, sheet_n, BOTH, N};
use reference::best::best_with;
use reference::brought::Brought;
use reference::graph::sheet;
use reference::question::{Answer, Kind, BUFFER};
use reference::within::{best_within, best_within_with, Within};

/// Numbers of trials that are refused.
const WRONG: [u64; 9] = [0, 1, 34, 35, 256 + 2, 65_535, 65_536 + 2, (1 << 32) + 2, u64::MAX];

/// Each p by itself, where there is a cover, where limit 0 is accepted in one trial, and where there is none.
#[test]
fn p_is_2_to_33() {
    let apart = sheet(4, &[(0, 1, 1)]);
    for kind in BOTH {
        for (bytes, k) in [(sheet_n(), 2), (sheet_n(), 4), (apart.clone(), 1)] {
            for p in (0..=300).chain(WRONG) {
                let mut lent = buffer_of(BUFFER);
                let answer = best_within(kind, &bytes, k, p, &mut lent);
                let is_right = (2..=33).contains(&p);
                assert_eq!(answer != Within::Refused(56), is_right, "{kind:?} {k} {p}");
                assert_eq!(matches!(answer, Within::Refused(_)), !is_right, "{kind:?} {k} {p}");
                let is_written = matches!(answer, Within::Cover { .. });
                assert_eq!(lent != buffer_of(BUFFER), is_written, "{kind:?} {k} {p}");
                assert_eq!(is_right && k == 1, answer == Within::NoCover, "{kind:?} {k} {p}");
            }
        }
    }
}

/// Sheets with their number, 0 for a right one; each with one edge but for the lengths.
fn sheets() -> Vec<(Vec<u8>, u16)> {
    vec![
        (sheet(4, &[(0, 1, 7)]), 0),
        (sheet(4, N), 0),
        (sheet(2, &[]), 0),
        (vec![], 11),
        (vec![4, 0, 1, 0], 11),
        (sheet(0, &[(0, 1, 7)]), 12),
        (sheet(257, &[]), 12),
        (sheet(2, &vec![(0, 1, 1); 2_049]), 13),
        (sheet(4, &[(4, 0, 7)]), 14),
        (sheet(4, &[(2, 2, 7)]), 15),
        (sheet(4, &[(0, 1, 1_000_001)]), 16),
        (sheet(4, &[(0, 1, 900_000)]), 54),
    ]
}

/// Lists of vans for k of them on n vertices: none, a right one, and two wrong ones.
fn van_lists(n: usize, k: u64) -> [(Option<Vec<u8>>, bool); 4] {
    let k = k.min(40) as usize;
    let high = [vec![n; k.min(1)], vec![0; k.saturating_sub(1)]].concat();
    [
        (None, true),
        (Some(list(&vec![n.saturating_sub(1); k])), true),
        (Some(list(&vec![0; k + 1])), false),
        (Some(list(&high)), false),
    ]
}

/// The numbers of all that is wrong with a question, by the causes put into it, in the order in which they are tried.
fn due(causes: &[(bool, u16)]) -> u16 {
    causes.iter().find(|cause| cause.0).map_or(0, |cause| cause.1)
}

/// Every cause beside every other: the number is that of the first in the order 11 to 16, 53, 54, 21, 55, 23, 56.
#[test]
fn every_number_in_its_place() {
    let mut met = std::collections::BTreeMap::new();
    for (sheet, of_sheet) in sheets() {
        let m = sheet.len().saturating_sub(4) / 8;
        let n = sheet.first().map_or(0, |&n| usize::from(n));
        for (length, kind) in [0, m, m + 1].into_iter().flat_map(|m| BOTH.map(|kind| (m, kind))) {
            for k in [1, 2, 0, 33, u64::MAX, 5] {
                for (vans, fits) in van_lists(n, k) {
                    let brought = Brought {
                        sheet: &sheet,
                        classes: Some(&vec![40; length]),
                        vans: vans.as_deref(),
                    };
                    let is_listed = kind == Kind::Rooted && vans.is_some();
                    let above = kind == Kind::Rooted && vans.is_none() && k > n as u64;
                    for (room, p) in rooms_and_trials() {
                        let number = due(&[
                            (of_sheet != 0 && of_sheet != 54, of_sheet),
                            (length != m, 53),
                            (of_sheet == 54, 54),
                            (k == 0 || k > 32 || above, 21),
                            (is_listed && !fits, 55),
                            (room < BUFFER, 23),
                            (!(2..=33).contains(&p), 56),
                        ]);
                        assert_number(kind, brought, (k, p, room), number);
                        *met.entry(number).or_insert(0) += 1;
                    }
                }
            }
        }
    }
    let numbers: Vec<u16> = met.keys().copied().collect();
    assert_eq!(numbers, [0, 11, 12, 13, 14, 15, 16, 21, 23, 53, 54, 55, 56], "{met:?}");
    assert!(met.values().all(|&count| count > 50), "{met:?}");
}

/// Buffer lengths and numbers of trials, right and wrong.
fn rooms_and_trials() -> Vec<(usize, u64)> {
    let rooms = [BUFFER, BUFFER - 1, 0];
    rooms.into_iter().flat_map(|room| [2, 33, 1, 34, u64::MAX].map(|p| (room, p))).collect()
}

/// The question is refused with the number due, or not at all for 0; refused, it leaves the buffer. The best-limit question
/// is refused alike, but for 56.
fn assert_number(kind: Kind, brought: Brought, (k, p, room): (u64, u64, usize), due: u16) {
    let mut lent = buffer_of(room);
    let answer = best_within_with(kind, brought, k, p, &mut lent);
    let asked = (kind, brought.vans, k, p, room);
    match answer {
        Within::Refused(number) => {
            assert_eq!(number, due, "{asked:?}");
            assert!(lent == buffer_of(room), "{asked:?}");
        }
        _ => assert_eq!(due, 0, "{asked:?}"),
    }
    let best = best_with(kind, brought, k, &mut lent);
    let of_best = if due == 56 { 0 } else { due };
    match best {
        Answer::Refused(number) => assert_eq!(number, of_best, "{asked:?}"),
        _ => assert_eq!(of_best, 0, "{asked:?}"),
    }
}
