//! Every refusal number at each of its causes, the order among them, and lent bytes left alone.

use crate::common::{buffer, buffer_of, filing, input, question, sheet_n, BOTH, N};
use reference::assignment::{assign, judge, Assigned};
use reference::best::best;
use reference::check::check;
use reference::graph::{read, sheet};
use reference::question::{Answer, Kind, BUFFER, LIMIT};
use reference::rounds::rounds;
use reference::trial::trial;
use Kind::{Rooted, Unrooted};

/// Bad sheets with the number due, each with later faults where it can have them.
fn bad_sheets() -> Vec<(&'static str, Vec<u8>, u16)> {
    let longer = |mut bytes: Vec<u8>| {
        bytes.push(0);
        bytes
    };
    let shorter = |bytes: Vec<u8>| bytes[..bytes.len() - 1].to_vec();
    let many = |n| sheet(n, &vec![(9, 9, 1_000_001); 2049]);
    vec![
        ("empty", vec![], 11),
        ("three bytes", vec![0, 0, 0], 11),
        ("one byte more", longer(sheet_n()), 11),
        ("one byte less", shorter(sheet_n()), 11),
        ("one byte more, n 0", longer(sheet(0, &[(9, 9, 1_000_001)])), 11),
        ("too long, m above", longer(many(0)), 11),
        ("length of no edge, m 1", vec![2, 0, 1, 0], 11),
        ("n 0", sheet(0, &[]), 12),
        ("n 257", sheet(257, &[]), 12),
        ("n 65535", sheet(65_535, &[]), 12),
        ("n 0, m above", many(0), 12),
        ("n 257, bad edge", sheet(257, &[(9, 9, 1_000_001)]), 12),
        ("m 2049", sheet(4, &vec![(0, 1, 1); 2049]), 13),
        ("m 2049, bad edges", many(4), 13),
        ("first end n", sheet(4, &[(4, 1, 1)]), 14),
        ("second end n", sheet(4, &[(1, 4, 1)]), 14),
        ("end 65535", sheet(256, &[(1, 65_535, 1)]), 14),
        ("ends n, equal, weight 1,000,001", sheet(4, &[(4, 4, 1_000_001)]), 14),
        ("equal ends", sheet(4, &[(3, 3, 1)]), 15),
        ("equal ends, weight 1,000,001", sheet(4, &[(3, 3, 1_000_001)]), 15),
        ("weight 1,000,001", sheet(4, &[(0, 1, 1_000_001)]), 16),
        ("weight 16,777,216", sheet(4, &[(0, 1, 1 << 24)]), 16),
        ("weight all ones", sheet(4, &[(0, 1, 4_294_967_295)]), 16),
        ("16 before a later 14", sheet(4, &[(0, 1, 1_000_001), (4, 1, 1)]), 16),
        ("15 before a later 14", sheet(4, &[(1, 1, 1), (4, 1, 1)]), 15),
        ("16 before a later 15", sheet(4, &[(0, 1, 1_000_001), (1, 1, 1)]), 16),
        ("14 of a later edge", sheet(4, &[(0, 1, 1), (4, 1, 1)]), 14),
        ("16 of the last edge", sheet(4, &[(0, 1, 1), (0, 1, 1_000_001)]), 16),
    ]
}

/// Bad sheets in which weight 0 stands beside the fault: it is none itself, and hides none.
fn bad_beside_weight_0() -> Vec<(&'static str, Vec<u8>, u16)> {
    vec![
        ("one byte more, weight 0", [sheet(2, &[(0, 1, 0)]), vec![0]].concat(), 11),
        ("n 257, weight 0", sheet(257, &[(0, 1, 0)]), 12),
        ("m 2049, weights 0", sheet(4, &vec![(0, 1, 0); 2049]), 13),
        ("end n, weight 0", sheet(4, &[(4, 1, 0)]), 14),
        ("ends n, equal, weight 0", sheet(4, &[(4, 4, 0)]), 14),
        ("equal ends, weight 0", sheet(4, &[(3, 3, 0)]), 15),
        ("14 behind a weight 0", sheet(4, &[(0, 1, 0), (4, 1, 1)]), 14),
        ("15 behind a weight 0", sheet(4, &[(0, 1, 0), (1, 1, 1)]), 15),
        ("16 behind a weight 0", sheet(4, &[(0, 1, 0), (0, 1, 1_000_001)]), 16),
        ("16 before a weight 0", sheet(4, &[(0, 1, 1_000_001), (0, 1, 0)]), 16),
    ]
}

#[test]
fn sheets_are_refused_before_everything_else() {
    for (name, bytes, number) in bad_sheets().into_iter().chain(bad_beside_weight_0()) {
        assert_eq!(read(&bytes), Err(number), "{name}");
        for kind in BOTH {
            for (k, limit, room) in [(1, 1, BUFFER), (0, LIMIT + 1, 0), (99, 0, 5)] {
                let mut lent = buffer_of(room);
                let refused = Answer::Refused(number);
                assert_eq!(trial(kind, &bytes, k, limit, &mut lent), refused, "{name}");
                assert_eq!(best(kind, &bytes, k, &mut lent), refused, "{name}");
                assert_eq!(lent, buffer_of(room), "{name}");
                assert_eq!(check(kind, &bytes, k, &[]), Err(number), "{name}");
            }
            let asked = input(question(kind, true), 0, LIMIT + 1, &bytes);
            let due = if asked.len() > 16_396 { 41 } else { number };
            assert_eq!(rounds(&asked), format!("refused {due}\n"), "{name}");
        }
    }
}

#[test]
fn good_sheets_at_the_edges_of_the_ranges_are_read() {
    let rows = [
        sheet(1, &[]),
        sheet(256, &[(255, 0, 1), (0, 255, 1_000_000)]),
        sheet(2, &vec![(0, 1, 1_000_000); 2048]),
        sheet(2, &[(0, 1, 0)]),
        sheet(4, &[(0, 1, 1_000_000), (3, 2, 0)]),
        sheet(4, &[(3, 2, 0), (0, 1, 1), (3, 2, 0)]),
        sheet(2, &vec![(0, 1, 0); 2048]),
        sheet(256, &[vec![(0, 255, 1_000_000); 2047], vec![(255, 0, 0)]].concat()),
    ];
    for bytes in rows {
        assert_eq!(read(&bytes).map(|graph| graph.to_sheet()), Ok(bytes));
    }
}

#[test]
fn planners_are_refused_in_order() {
    // Kind, k, limit, buffer length, number of the trial, number of the best limit (0: not refused).
    type Row = (Kind, u64, u64, usize, u16, u16);
    let rows: [Row; 17] = [
        (Rooted, 0, 0, BUFFER, 21, 21),
        (Rooted, 5, 0, BUFFER, 21, 21),
        (Rooted, 33, 0, BUFFER, 21, 21),
        (Rooted, 0, LIMIT + 1, 0, 21, 21),
        (Rooted, 4, 0, BUFFER, 0, 0),
        (Rooted, 4, LIMIT + 1, BUFFER, 22, 0),
        (Rooted, 4, LIMIT + 1, BUFFER - 1, 22, 23),
        (Rooted, 4, LIMIT, BUFFER, 0, 0),
        (Rooted, 4, LIMIT, BUFFER - 1, 23, 23),
        (Rooted, 4, LIMIT, 0, 23, 23),
        (Unrooted, 0, 0, BUFFER, 21, 21),
        (Unrooted, 33, LIMIT + 1, 0, 21, 21),
        (Unrooted, u64::MAX, 0, BUFFER, 21, 21),
        (Unrooted, 32, LIMIT, BUFFER, 0, 0),
        (Unrooted, 5, u64::MAX, 0, 22, 23),
        (Unrooted, 5, 4_294_967_295, BUFFER, 22, 0),
        (Unrooted, 5, LIMIT, BUFFER - 1, 23, 23),
    ];
    for row in rows {
        let (kind, k, limit, room, of_trial, of_best) = row;
        let mut lent = buffer_of(room);
        let answer = trial(kind, &sheet_n(), k, limit, &mut lent);
        assert_eq!(refusal(&answer), of_trial, "{row:?}");
        assert_eq!(lent == buffer_of(room), of_trial > 0, "{row:?}");
        let mut lent = buffer_of(room);
        let answer = best(kind, &sheet_n(), k, &mut lent);
        assert_eq!(refusal(&answer), of_best, "{row:?}");
        assert_eq!(lent == buffer_of(room), of_best > 0, "{row:?}");
    }
}

/// The refusal number of an answer, or 0.
fn refusal(answer: &Answer) -> u16 {
    match answer {
        Answer::Refused(number) => *number,
        _ => 0,
    }
}

#[test]
fn assignments_are_refused_and_leave_the_buffer() {
    let ones = |count: usize| vec![1u8; count];
    let rows: [(usize, usize, Vec<u8>, usize, bool); 14] = [
        (256, 1, ones(256), 300, true),
        (255, 32, ones(255 * 32), 255, false),
        (255, 32, ones(255 * 32), 254, true),
        (2, 0, ones(0), 9, true),
        (2, 33, ones(66), 9, true),
        (2, 32, ones(64), 9, false),
        (2, 3, ones(5), 9, true),
        (2, 3, ones(7), 9, true),
        (2, 3, vec![0, 1, 0, 0, 0, 2], 9, true),
        (2, 3, vec![255, 1, 0, 0, 0, 0], 9, true),
        (2, 3, ones(6), 1, true),
        (2, 3, ones(6), 2, false),
        (0, 1, ones(0), 0, false),
        (0, 0, ones(0), 0, true),
    ];
    for (p, y, allowed, room, refused) in rows {
        let before = buffer_of(room);
        let mut after = before.clone();
        let reply = assign(p, y, &allowed, &mut after);
        assert_eq!(reply == Assigned::Refused(24), refused, "p {p} y {y}");
        assert!(!refused || before == after, "p {p} y {y}");
        assert_eq!(judge(p, y, &allowed, &before, &after, reply), Ok(()));
        let wrong = if refused { Assigned::Roots } else { Assigned::Refused(24) };
        assert!(judge(p, y, &allowed, &before, &before, wrong).is_err());
    }
}

#[test]
fn filed_lengths_and_starts_are_refused_in_order() {
    let cut = |bytes: Vec<u8>| bytes[..bytes.len() - 1].to_vec();
    let all = &[(0, 0), (0, 1)];
    // Name, kind, k, filed bytes and the number due on sheet N.
    let rows: Vec<(&str, Kind, u64, Vec<u8>, u16)> = vec![
        ("k 0 before 31", Rooted, 0, vec![], 21),
        ("k above n before 31", Rooted, 5, vec![], 21),
        ("k 33 before 31", Unrooted, 33, vec![], 21),
        ("empty", Rooted, 2, vec![], 31),
        ("three bytes", Unrooted, 2, vec![0; 3], 31),
        ("cut short", Rooted, 2, cut(filing(&[0, 1], all)), 31),
        ("31 before 32", Rooted, 2, [filing(&[7], all), vec![0]].concat(), 31),
        ("one root missing", Rooted, 2, filing(&[0], all), 32),
        ("one root more", Rooted, 2, filing(&[0, 1, 2], all), 32),
        ("roots swapped, 32 before 33", Rooted, 2, filing(&[1, 0], &[(9, 9)]), 32),
        ("start twice", Rooted, 2, filing(&[0, 0], all), 32),
        ("no tree", Unrooted, 2, filing(&[], &[]), 32),
        ("no tree, 32 before 33", Unrooted, 2, filing(&[], &[(0, 0)]), 32),
        ("three of two trees", Unrooted, 2, filing(&[0, 1, 2], &[]), 32),
        ("start n", Unrooted, 2, filing(&[0, 4], all), 32),
        ("start 65535", Unrooted, 2, filing(&[0, 65_535], all), 32),
    ];
    for (name, kind, k, filed, number) in rows {
        assert_eq!(check(kind, &sheet_n(), k, &filed), Err(number), "{name}");
    }
}

#[test]
fn filed_entries_and_trees_are_refused_in_order() {
    // Sheet N with an edge 3 that closes a loop and an edge 4 beside edge 0.
    let looped = sheet(4, &[N, &[(0, 3, 1), (0, 2, 9)]].concat());
    // Name, kind, starts, entries (tree, edge) and the number due with k 2.
    type Row = (&'static str, Kind, &'static [usize], &'static [(usize, usize)], u16);
    let rows: [Row; 14] = [
        ("tree t", Rooted, &[0, 1], &[(0, 0), (2, 1)], 33),
        ("edge m", Rooted, &[0, 1], &[(0, 0), (0, 5)], 33),
        ("entry twice", Rooted, &[0, 1], &[(0, 0), (0, 0)], 33),
        ("edges fall", Rooted, &[0, 1], &[(0, 1), (0, 0)], 33),
        ("trees fall", Rooted, &[0, 1], &[(1, 2), (0, 0)], 33),
        ("33 before an earlier 34", Rooted, &[0, 1], &[(0, 2), (0, 5)], 33),
        ("not joined", Rooted, &[0, 1], &[(0, 0), (1, 1)], 34),
        ("34 before 35", Rooted, &[0, 1], &[(0, 1)], 34),
        ("loop", Rooted, &[0, 1], &[(0, 0), (0, 1), (0, 3)], 34),
        ("loop of two", Rooted, &[0, 1], &[(0, 0), (0, 1), (0, 4)], 34),
        ("loop apart", Unrooted, &[1], &[(0, 0), (0, 1), (0, 3)], 34),
        ("loop in the second", Unrooted, &[1, 0], &[(1, 0), (1, 1), (1, 3)], 34),
        ("uncovered", Rooted, &[0, 1], &[(0, 0)], 35),
        ("nothing", Unrooted, &[3], &[], 35),
    ];
    for (name, kind, starts, entries, number) in rows {
        let filed = filing(starts, entries);
        assert_eq!(check(kind, &looped, 2, &filed), Err(number), "{name}");
    }
}

#[test]
fn filed_covers_that_pass() {
    // Kind, k, starts, entries (tree, edge) and the heaviest weight.
    type Row = (Kind, u64, &'static [usize], &'static [(usize, usize)], u64);
    let rows: [Row; 5] = [
        (Rooted, 2, &[0, 1], &[(0, 0), (0, 1)], 6),
        (Rooted, 2, &[0, 1], &[(0, 0), (0, 1), (1, 1), (1, 2)], 8),
        (Rooted, 1, &[0], &[(0, 0), (0, 1), (0, 2)], 11),
        (Unrooted, 32, &[3, 3], &[(0, 0), (0, 1), (1, 2)], 6),
        (Unrooted, 4, &[3, 2, 1, 0], &[], 0),
    ];
    for (kind, k, starts, entries, heaviest) in rows {
        let filed = filing(starts, entries);
        assert_eq!(check(kind, &sheet_n(), k, &filed), Ok(heaviest), "{entries:?}");
    }
}

#[test]
fn inputs_of_the_program_are_refused() {
    let full = sheet(2, &vec![(0, 1, 1); 2048]);
    let over = [input(1, 1, 1, &full), vec![0]].concat();
    let rows: Vec<(&str, Vec<u8>, &str)> = vec![
        ("empty", vec![], "refused 41\n"),
        ("seven bytes", input(1, 2, 4, &[])[..7].to_vec(), "refused 41\n"),
        ("eight bytes", input(1, 2, 4, &[]), "refused 11\n"),
        ("question 0", input(0, 2, 4, &sheet_n()), "refused 41\n"),
        ("question 5", input(5, 2, 4, &sheet_n()), "refused 41\n"),
        ("question 256", input(256, 2, 4, &sheet_n()), "refused 41\n"),
        ("41 before 11", input(5, 0, LIMIT + 1, &[]), "refused 41\n"),
        ("16,396 bytes", input(1, 2, 1, &full), "cover 1 0 2\ntree 0 0\ntree 1 0\n"),
        ("16,397 bytes", over, "refused 41\n"),
        ("k 0", input(2, 0, LIMIT + 1, &sheet_n()), "refused 21\n"),
        ("k above n", input(3, 5, 4, &sheet_n()), "refused 21\n"),
        ("limit above", input(2, 1, LIMIT + 1, &sheet_n()), "refused 22\n"),
        ("limit unread", input(4, 1, LIMIT + 1, &sheet_n()), "cover 6 11 1\ntree 0 11 0 1 2\n"),
    ];
    for (name, bytes, due) in rows {
        assert_eq!(rounds(&bytes), due, "{name}");
    }
}

#[test]
fn answers_without_bytes_leave_the_buffer() {
    let mut lent = buffer();
    assert_eq!(trial(Rooted, &sheet_n(), 2, 2, &mut lent), Answer::Stop(2));
    assert_eq!(trial(Unrooted, &sheet_n(), 2, 3, &mut lent), Answer::Needs(3));
    assert_eq!(best(Rooted, &sheet(2, &[]), 1, &mut lent), Answer::NoCover);
    assert_eq!(best(Unrooted, &sheet(2, &[]), 1, &mut lent), Answer::NoCover);
    assert_eq!(lent, buffer());
}
