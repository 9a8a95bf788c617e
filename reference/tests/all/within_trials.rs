//! The trials that are made for each number of them: against a plain record, on every pattern of accepted limits of small
//! sums, on random sheets, and on the largest sums.

use crate::common::within::{due_after, next_limit, Put};
use crate::common::{buffer, sheet_n, BOTH};
use reference::best::best_with;
use reference::fixed::is_fixed;
use reference::graph::{sheet, Graph};
use reference::made_shapes::{RISING_ROOTED, RISING_UNROOTED};
use reference::optimum::optimum;
use reference::question::{Answer, Kind};
use reference::random::Random;
use reference::trial::{run, Outcome};
use reference::within::{best_within, search, Standing, Within};

/// Kind, k, the trials in order with whether each is accepted, and the heaviest weight of those on sheet N; none where it
/// depends on a free choice.
type Row = (Kind, u64, &'static [(u64, bool, Option<u64>)]);

const ROWS: [Row; 6] = [
    (
        Kind::Rooted,
        2,
        &[
            (0, false, None),
            (11, true, Some(6)),
            (5, true, None),
            (2, false, None),
            (3, false, None),
            (4, true, Some(6)),
        ],
    ),
    (
        Kind::Unrooted,
        1,
        &[
            (0, false, None),
            (11, true, Some(11)),
            (5, false, None),
            (8, true, Some(11)),
            (6, true, Some(11)),
        ],
    ),
    // At limit 5 the three edges are one part of 11; at 3 edge 2 is dropped, and the others are one of 6.
    (
        Kind::Unrooted,
        3,
        &[
            (0, false, None),
            (11, true, Some(11)),
            (5, true, Some(11)),
            (2, false, None),
            (3, true, Some(6)),
        ],
    ),
    (Kind::Unrooted, 4, &[(0, true, Some(0))]),
    (Kind::Rooted, 4, &[(0, true, Some(0))]),
    (Kind::Unrooted, 32, &[(0, true, Some(0))]),
];

/// Every p on sheet N, whose trials were worked out by hand.
#[test]
fn trials_of_sheet_n_by_hand() {
    for (kind, k, made) in ROWS {
        for p in 2..=33 {
            let so_far = &made[..made.len().min(p)];
            let low = so_far.iter().rev().find(|made| !made.1).map_or(0, |made| made.0);
            let &(limit, _, of_limit) = so_far.iter().rev().find(|made| made.1).expect("a cover");
            let answer = best_within(kind, &sheet_n(), k, p as u64, &mut buffer());
            let Within::Cover { high, heaviest, trials, floor, spent } = answer else {
                panic!("{answer:?}");
            };
            assert_eq!((high, trials), (limit, so_far.len() as u64), "{kind:?} k {k} p {p}");
            assert_eq!(floor, if limit == 0 { 0 } else { low + 1 }, "{kind:?} k {k} p {p}");
            assert_eq!(spent, p < made.len(), "{kind:?} k {k} p {p}");
            assert!(of_limit.is_none_or(|due| due == heaviest), "{kind:?} k {k} p {p}");
        }
    }
}

/// The limits that a search of p trials tries, and where it stands; accepted are those that are said to be.
fn tried(sum: u64, p: u64, is_accepted: &dyn Fn(u64) -> bool) -> (Vec<u64>, Standing<u64>) {
    let mut limits = Vec::new();
    let at = search(sum, p, |limit| {
        limits.push(limit);
        is_accepted(limit).then_some(limit)
    });
    (limits, at)
}

/// The limits due to a whole search, each with whether it is accepted.
fn whole_search(sum: u64, is_accepted: &dyn Fn(u64) -> bool) -> Vec<(u64, bool)> {
    let mut whole = Vec::new();
    while let Some(limit) = next_limit(&whole, sum) {
        whole.push((limit, is_accepted(limit)));
    }
    whole
}

/// Holds the searches of every p against the whole one: they try its first p limits, and stand where these leave off.
fn assert_first_trials(sum: u64, is_accepted: &dyn Fn(u64) -> bool) -> usize {
    let whole = whole_search(sum, is_accepted);
    assert!(whole.len() <= 33, "a number of trials that may be asked for suffices");
    for p in 2..=33 {
        let due = &whole[..whole.len().min(p)];
        let (limits, at) = tried(sum, p as u64, is_accepted);
        assert_eq!(limits, due.iter().map(|tried| tried.0).collect::<Vec<u64>>(), "{sum} {p}");
        let high = due.iter().filter(|tried| tried.1).map(|tried| tried.0).min();
        let low = due.iter().filter(|tried| !tried.1).map(|tried| tried.0).max();
        assert_eq!((Some(at.high), at.low), (high, low.unwrap_or(0)), "{sum} {p}");
        assert_eq!((at.cover, at.trials), (at.high, due.len() as u64), "{sum} {p}");
        assert_eq!(at.is_spent(), p < whole.len(), "{sum} {p}");
        assert_eq!(at.floor(), low.map_or(0, |low| low + 1), "{sum} {p}");
    }
    whole.len()
}

/// Every pattern of accepted limits below sums up to 11, those with a gap too: "accepted" need not persist.
#[test]
fn every_pattern_of_accepted_limits() {
    for sum in 1..=11u64 {
        for pattern in 0..1u64 << sum {
            assert_first_trials(sum, &|limit| limit == sum || pattern >> limit & 1 == 1);
        }
    }
}

/// With the largest sum 33 trials always suffice, and 32 do not; a search of p trials ends below p where it may.
#[test]
fn the_largest_sum_takes_33_trials_at_most() {
    let sum = 2_048_000_000;
    let mut random = Random::new(121);
    let mut met = [0; 34];
    for turn in 0..400u64 {
        let border = match turn {
            0..200 => turn + 1,
            200..300 => sum - (turn - 200),
            _ => 1 + random.next_number() % sum,
        };
        met[assert_first_trials(sum, &|limit| limit >= border)] += 1;
    }
    assert!(met[32] > 0 && met[33] > 0 && met[32] + met[33] == 400, "{met:?}");
}

/// The largest sheet of all, by p: 2,048 lines of weight 1,000,000 between two stops, or along 256.
#[test]
fn the_largest_sheets() {
    for n in [2, 256] {
        let edges: Vec<_> = (0..2_048).map(|e| (e % (n - 1), e % (n - 1) + 1, 1_000_000)).collect();
        let bytes = sheet(n, &edges);
        for kind in BOTH {
            let mut spent_with = Vec::new();
            for p in [2, 3, 9, 31, 32, 33] {
                let Within::Cover { spent, trials, floor, high, .. } =
                    best_within(kind, &bytes, 1, p, &mut buffer())
                else {
                    panic!("a cover");
                };
                assert_eq!((spent, trials <= p), (floor < high, true), "{kind:?} {n} {p}");
                spent_with.push(spent);
            }
            assert_eq!(spent_with[..4], [true; 4], "{kind:?} {n}");
            assert!(!spent_with[5], "{kind:?} {n}");
        }
    }
}

/// On random sheets the limits tried are those of the record, and the reply is what the first p of them leave, to the byte.
#[test]
fn replies_are_what_the_first_trials_leave() {
    let mut random = Random::new(122);
    let mut met = [0; 34];
    for _ in 0..1_500 {
        let put = Put::new(&mut random);
        if optimum(put.kind, &put.due, &put.crews).is_none() {
            continue;
        }
        let made = put.every_trial();
        let accepts =
            |limit| matches!(run(put.kind, &put.due, &put.crews, limit), Outcome::Cover(_));
        assert_eq!(assert_first_trials(put.due.total(), &accepts), made.len());
        met[made.len()] += 1;
        for p in 2..=33 {
            assert!(put.ask(p) == due_after(&made, p as usize), "p {p} {:?}", put.due);
        }
    }
    let kinds = met.iter().filter(|&&count| count > 0).count();
    assert!(met[0] == 0 && met[1] > 50 && kinds > 10, "{met:?}");
}

/// A reply that is not spent is that of the best-limit question, and a spent one never has its last limit for high and floor.
#[test]
fn replies_at_the_end_are_those_of_the_best_limit() {
    let mut random = Random::new(123);
    let mut met = [0; 3];
    for _ in 0..1_500 {
        let put = Put::new(&mut random);
        let mut lent = buffer();
        let best = best_with(put.kind, put.brought(), put.k(), &mut lent);
        for p in 2..=33 {
            match (put.ask(p), &best) {
                ((Within::NoCover, _), Answer::NoCover) => met[0] += 1,
                (
                    (Within::Cover { high, heaviest, floor, spent: false, .. }, cover),
                    Answer::Cover { limit, heaviest: of_best },
                ) => {
                    assert_eq!((high, floor, heaviest), (*limit, *limit, *of_best));
                    assert!(cover[..] == lent[..cover.len()], "{:?}", put.due);
                    met[1] += 1;
                }
                (
                    (Within::Cover { high, floor, trials, spent: true, .. }, _),
                    Answer::Cover { limit, .. },
                ) => {
                    assert!(trials == p && p < 33 && floor < high, "{:?}", put.due);
                    assert!(floor <= *limit && *limit <= high, "{:?}", put.due);
                    met[2] += 1;
                }
                (other, _) => panic!("{other:?} beside {best:?}: {:?}", put.due),
            }
        }
    }
    assert!(met.iter().all(|&count| count > 1_000), "{met:?}");
}

/// What is said of p trials: high, the heaviest weight, the trials made, the floor, and whether spent.
type Said = (u64, u64, u64, u64, bool);

/// Kind, k, vertices, edges (end, end, weight), and what is said of 2 trials, of 3, and so on; the last one of all others.
type Risen = (Kind, u64, usize, &'static [(usize, usize, u64)], &'static [Said]);

/// Sheets where with one more trial the heaviest tree is heavier, found by search: the lightest with the fewest vertices that
/// 30,000,000 random ones showed, among those where no free choice can make it otherwise.
const RISEN: [Risen; 2] = [
    (
        Kind::Rooted,
        2,
        5,
        RISING_ROOTED,
        &[(10, 4, 2, 1, true), (5, 4, 3, 1, true), (2, 5, 4, 1, true), (2, 5, 5, 2, false)],
    ),
    (
        Kind::Unrooted,
        3,
        6,
        RISING_UNROOTED,
        &[
            (19, 19, 2, 1, true),
            (9, 19, 3, 1, true),
            (9, 19, 4, 5, true),
            (6, 12, 5, 5, true),
            (5, 13, 6, 5, false),
        ],
    ),
];

#[test]
fn more_trials_may_make_the_heaviest_heavier() {
    for (kind, k, n, edges, said) in RISEN {
        let graph = Graph::new(n, edges);
        assert!(said.windows(2).any(|pair| pair[0].1 < pair[1].1));
        for p in 2..=33 {
            let (high, heaviest, trials, floor, spent) = said[(p - 2).min(said.len() - 1)];
            let due = Within::Cover { high, heaviest, trials, floor, spent };
            let answer = best_within(kind, &graph.to_sheet(), k, p as u64, &mut buffer());
            assert_eq!(answer, due, "{kind:?} {p}");
            assert!(is_fixed(kind, &graph, k as usize, high), "{kind:?} {p}");
        }
    }
}
