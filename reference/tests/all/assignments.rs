//! The assignment alone against a search of all assignments, and its judge against wrong replies.

use crate::common::buffer_of;
use reference::assignment::{assign, exists_by_trying_all, judge, Assigned};
use reference::random::Random;

#[test]
fn assignments_by_hand() {
    // Parts, roots, allowed bytes, the reply and the bytes written.
    type Row = (usize, usize, &'static [u8], Assigned, &'static [u8]);
    let rows: [Row; 6] = [
        (0, 1, &[], Assigned::Roots, &[]),
        (1, 1, &[0], Assigned::Deficient, &[1]),
        (1, 3, &[0, 1, 0], Assigned::Roots, &[1]),
        (2, 1, &[1, 1], Assigned::Deficient, &[1, 1]),
        (2, 2, &[1, 1, 1, 0], Assigned::Roots, &[1, 0]),
        (3, 3, &[1, 1, 0, 0, 0, 0, 1, 1, 1], Assigned::Deficient, &[0, 1, 0]),
    ];
    for (p, y, allowed, reply, written) in rows {
        let mut lent = buffer_of(p + 3);
        assert_eq!(assign(p, y, allowed, &mut lent), reply, "{allowed:?}");
        assert_eq!(&lent[..p], written, "{allowed:?}");
        assert_eq!(lent[p..], buffer_of(p + 3)[p..], "{allowed:?}");
    }
}

/// A random question with a given share of allowed roots out of ten.
fn question(random: &mut Random, p: usize, y: usize, share: usize) -> Vec<u8> {
    (0..p * y).map(|_| u8::from(random.below(10) < share)).collect()
}

#[test]
fn assignments_exist_exactly_when_a_search_of_all_finds_one() {
    let mut random = Random::new(11);
    let mut counts = [0, 0];
    for _ in 0..20_000 {
        let (p, y) = (random.between(0, 6), random.between(1, 6));
        let share = random.between(1, 9);
        let allowed = question(&mut random, p, y, share);
        let before = buffer_of(p + random.below(3));
        let mut after = before.clone();
        let reply = assign(p, y, &allowed, &mut after);
        let exists = exists_by_trying_all(p, y, &allowed);
        assert_eq!(reply == Assigned::Roots, exists, "p {p} y {y} {allowed:?}");
        assert_eq!(judge(p, y, &allowed, &before, &after, reply), Ok(()));
        counts[usize::from(exists)] += 1;
    }
    assert!(counts[0] > 4000 && counts[1] > 4000, "{counts:?}");
}

#[test]
fn every_possible_reply_is_judged_by_the_definition() {
    let mut random = Random::new(12);
    for _ in 0..300 {
        let (p, y) = (random.between(1, 3), random.between(1, 3));
        let allowed = question(&mut random, p, y, 6);
        let before = vec![7; p];
        for code in 0..4usize.pow(p as u32) {
            let after: Vec<u8> = (0..p).map(|i| (code >> (2 * i) & 3) as u8).collect();
            for reply in [Assigned::Roots, Assigned::Deficient] {
                let right = match reply {
                    Assigned::Roots => is_assignment(y, &allowed, &after),
                    _ => is_deficient(y, &allowed, &after),
                };
                let judged = judge(p, y, &allowed, &before, &after, reply);
                assert_eq!(judged.is_ok(), right, "p {p} y {y} {allowed:?} {after:?}");
            }
        }
    }
}

/// Pair by pair: allowed roots only, and different roots for different parts.
fn is_assignment(y: usize, allowed: &[u8], roots: &[u8]) -> bool {
    let allows = |i: usize| usize::from(roots[i]) < y && allowed[i * y + roots[i] as usize] == 1;
    (0..roots.len()).all(|i| allows(i) && (0..i).all(|j| roots[i] != roots[j]))
}

/// Marks 0 or 1, and more marked parts than roots allowed to one of them.
fn is_deficient(y: usize, allowed: &[u8], marks: &[u8]) -> bool {
    let parts = marks.iter().filter(|&&mark| mark == 1).count();
    let near = |j: &usize| (0..marks.len()).any(|i| marks[i] == 1 && allowed[i * y + j] == 1);
    marks.iter().all(|&mark| mark < 2) && (0..y).filter(near).count() < parts
}

#[test]
fn the_judge_minds_the_rest_of_the_buffer() {
    let before = [9, 9, 9];
    let allowed = [1, 1];
    let rows: [([u8; 3], Assigned, bool); 5] = [
        ([0, 9, 9], Assigned::Roots, true),
        ([1, 9, 9], Assigned::Roots, true),
        ([2, 9, 9], Assigned::Roots, false),
        ([0, 9, 8], Assigned::Roots, false),
        ([9, 9, 9], Assigned::Refused(24), false),
    ];
    for (after, reply, right) in rows {
        let judged = judge(1, 2, &allowed, &before, &after, reply);
        assert_eq!(judged.is_ok(), right, "{after:?} {reply:?}");
    }
}

#[test]
fn large_assignments_are_judged_right() {
    let mut random = Random::new(13);
    for _ in 0..300 {
        let (p, y) = (random.between(20, 40), random.between(28, 32));
        let share = random.between(1, 3);
        let allowed = question(&mut random, p, y, share);
        let mut after = buffer_of(255);
        let reply = assign(p, y, &allowed, &mut after);
        assert_eq!(judge(p, y, &allowed, &buffer_of(255), &after, reply), Ok(()));
    }
}
