//! The best limit's question with a number of trials (document 02, A.6), put to the linked library: replies held to
//! `reference/`, which shares no code with it, to the best limit, to trials one by one, and to what is worked out here. Made
//! sheets are in `within/made.rs`, what is refused is in `within/refused.rs`.

mod common;
#[path = "within/made.rs"]
mod made;
#[path = "within/refused.rs"]
mod refused;
#[path = "common/sheets.rs"]
mod sheets;

use common::call::{call, Asked, Got, Question};
use common::judged::answered;
use planner::{within, Cover, Kind, Reached, Reply, Tree, Within, BUFFER};
use reference::graph::sheet;
use reference::made_shapes::{RISING_ROOTED, RISING_UNROOTED};
use reference::made_within;
use reference::random::Random;
use sheets::{all_of, sheet_n, written};

/// A question with a number of trials and room enough, without lists.
fn plain(kind: u32, k: usize, trials: usize, sheet: &[u8]) -> Question<'_> {
    let asked = Asked::Within { trials, room: BUFFER };
    Question { asked, kind, k, sheet, classes: None, vans: None }
}

/// The same question with another number of trials.
fn after<'a>(question: &Question<'a>, trials: usize) -> Question<'a> {
    Question { asked: Asked::Within { trials, room: BUFFER }, ..*question }
}

/// The limit, the heaviest weight, the number of trees, the trials made, the floor, and 1 if spent, of an answer with a cover.
fn values(got: &Got) -> Option<[u64; 6]> {
    [0, 5].contains(&got.case).then(|| got.values.1[..].try_into().expect("six values"))
}

/// Where a question with a number of trials is answered with a cover, the check says yes to it, a trial at its limit writes
/// the same, and one just below the floor is too low. Where it is not spent, the best limit writes the same.
fn followed(random: &mut Random, question: &Question) -> u32 {
    let got = answered(random, question);
    let Some([limit, heaviest, trees, _, floor, spent]) = values(&got) else { return got.case };
    assert!(floor <= limit && floor <= heaviest && heaviest <= 4 * limit, "{question:?}");
    assert_eq!(spent == 1, floor < limit, "{question:?}");
    let put = |asked| {
        let other = Question { asked, ..*question };
        call(limit, &other, other.general())
    };
    let [tried, best, ended, checked, _] = all_of(limit, written(&got));
    let same = if spent == 1 { vec![tried] } else { vec![tried, best, ended] };
    for said in same.into_iter().map(put) {
        assert_eq!((said.case, &said.values.1[..3]), (0, &[limit, heaviest, trees][..]));
        assert!(written(&said) == written(&got), "{question:?}");
    }
    let said = put(checked);
    assert_eq!((said.case, said.values.1[0]), (0, heaviest), "{question:?}");
    if let Some(limit) = floor.checked_sub(1) {
        let said = put(Asked::Trial { limit, room: BUFFER });
        assert!([1, 2, 3].contains(&said.case), "{question:?}");
    }
    got.case
}

/// On sheets of every shape, with lists and without, right ones and wrong ones.
#[test]
fn every_record_with_trials_is_answered_as_the_reference_allows() {
    let mut random = Random::new(70);
    let mut met = [0; 64];
    for record in made_within::within() {
        met[followed(&mut random, &Question::of(&record)) as usize] += 1;
    }
    for case in [0, 4, 5, 11, 12, 13, 14, 15, 16, 53, 54, 21, 55, 23, 56] {
        assert!(met[case] > 0, "case {case} is not met: {met:?}");
    }
}

/// A heaviest weight that depends on a free choice.
const FREE: u64 = u64::MAX;

/// Kind, k, and the values for two trials, for three and so on, the last for all others.
type Row = (u32, usize, &'static [[u64; 6]]);

/// Worked out by hand for sheet N of document 01: the trials are at 0 and 11, then rooted at 5, 2, 3 and 4, for one tree
/// without roots at 5, 8 and 6, for three at 5, 2 and 3.
const ROWS: [Row; 6] = [
    (
        0,
        2,
        &[
            [11, 6, 2, 2, 1, 1],
            [5, FREE, 2, 3, 1, 1],
            [5, FREE, 2, 4, 3, 1],
            [5, FREE, 2, 5, 4, 1],
            [4, 6, 2, 6, 4, 0],
        ],
    ),
    (1, 1, &[[11, 11, 1, 2, 1, 1], [11, 11, 1, 3, 6, 1], [8, 11, 1, 4, 6, 1], [6, 11, 1, 5, 6, 0]]),
    (1, 3, &[[11, 11, 1, 2, 1, 1], [5, 11, 1, 3, 1, 1], [5, 11, 1, 4, 3, 1], [3, 6, 2, 5, 3, 0]]),
    (0, 4, &[[0, 0, 4, 1, 0, 0]]),
    (1, 4, &[[0, 0, 4, 1, 0, 0]]),
    (1, 32, &[[0, 0, 4, 1, 0, 0]]),
];

/// 56 exactly for numbers of trials outside 2 to 33, those too whose lower bytes are inside.
#[test]
fn sheet_n_for_every_number_of_trials() {
    let mut random = Random::new(71);
    let wide = [256 + 2, 65_536 + 2, (1 << 32) + 2, (1 << 63) + 33, usize::MAX - 1, usize::MAX];
    for ((kind, k, due), trials) in
        ROWS.into_iter().flat_map(|row| (0..=35).chain(wide).map(move |trials| (row, trials)))
    {
        let got = answered(&mut random, &plain(kind, k, trials, &sheet_n([3, 3, 5])));
        if !(2..=33).contains(&trials) {
            assert_eq!(got.case, 56, "kind {kind} k {k} trials {trials}");
            continue;
        }
        let mut due = due[(trials - 2).min(due.len() - 1)];
        let said = values(&got).expect("a cover");
        if due[1] == FREE {
            assert!([6, 11].contains(&said[1]), "trials {trials}");
            due[1] = said[1];
        }
        assert_eq!((got.case, said), (5 * due[5] as u32, due), "kind {kind} k {k} trials {trials}");
    }
}

/// Limit 0 is accepted by one trial; of weight 1 the sum is accepted by the second, and nothing is left to try; weight 2 needs
/// a third. Where there is no cover, none is found before any trial.
#[test]
fn the_shortest_searches() {
    let mut random = Random::new(72);
    let edge = |weight| sheet(2, &[(0, 1, weight)]);
    for (kind, trials) in [0, 1].into_iter().flat_map(|kind| (2..=33).map(move |p| (kind, p))) {
        let mut said = |sheet: &[u8]| {
            let got = answered(&mut random, &plain(kind, 1, trials, sheet));
            (got.case, values(&got))
        };
        for weightless in [sheet(1, &[]), edge(0), sheet(3, &[(0, 1, 0), (1, 2, 0), (0, 2, 7)])] {
            assert_eq!(said(&weightless), (0, Some([0, 0, 1, 1, 0, 0])), "trials {trials}");
        }
        assert_eq!(said(&edge(1)), (0, Some([1, 1, 1, 2, 1, 0])), "trials {trials}");
        let due = if trials == 2 { (5, [2, 2, 1, 2, 1, 1]) } else { (0, [2, 2, 1, 3, 2, 0]) };
        assert_eq!(said(&edge(2)), (due.0, Some(due.1)), "trials {trials}");
        for alone in [sheet(2, &[]), sheet(4, &[(0, 1, 9), (2, 3, 9)])] {
            assert_eq!(said(&alone), (4, None), "trials {trials}");
        }
    }
}

/// Kind, k, sheet, and for two trials, three and so on the limit and the heaviest weight.
type Risen = (u32, usize, Vec<u8>, &'static [(u64, u64)]);

/// With one trial more the heaviest tree may be heavier, here where no choice is free.
#[test]
fn more_trials_may_make_the_heaviest_heavier() {
    let mut random = Random::new(73);
    let rows: [Risen; 2] = [
        (0, 2, sheet(5, RISING_ROOTED), &[(10, 4), (5, 4), (2, 5), (2, 5)]),
        (1, 3, sheet(6, RISING_UNROOTED), &[(19, 19), (9, 19), (9, 19), (6, 12), (5, 13)]),
    ];
    for (kind, k, sheet, due) in rows {
        for trials in 2..=33 {
            let question = plain(kind, k, trials, &sheet);
            let ended = followed(&mut random, &question) == 0;
            assert_eq!(ended, trials > due.len(), "kind {kind} trials {trials}");
            let said = values(&call(73, &question, question.general())).expect("a cover");
            let due = due[(trials - 2).min(due.len() - 1)];
            assert_eq!((said[0], said[1]), due, "kind {kind} trials {trials}");
        }
    }
}

/// The same where it depends on a free choice: at limit 12 all that is left at root 1 weighs 10. At 6 edge 0 is a part, which
/// makes a tree of 10 with what is left at root 1, of 11 from root 2, and of 12 from root 0.
#[test]
fn a_free_choice_may_make_the_heaviest_heavier() {
    let mut random = Random::new(74);
    let edges = [(3, 5, 6), (4, 3, 2), (2, 0, 1), (1, 3, 2), (2, 3, 6), (2, 3, 5), (3, 4, 3)];
    let sheet = sheet(6, &edges);
    let mut said = |trials| {
        let question = plain(0, 3, trials, &sheet);
        followed(&mut random, &question);
        values(&call(74, &question, question.general())).expect("a cover")
    };
    let [three, four] = [said(3), said(4)];
    assert_eq!((three, four[0], four[3]), ([12, 10, 3, 3, 1, 1], 6, 4));
    assert!([10, 11, 12].contains(&four[1]), "{four:?}");
}

/// The wrapper's answers: the whole of a spent one and of one that is not, lists, a search that finds no cover, refusals.
#[test]
fn answers_of_the_wrapper() {
    let sheet = sheet_n([3, 3, 5]);
    let plain = planner::Question::new(Kind::Rooted, 2, &sheet);
    let mut buffer = vec![7; BUFFER];
    let reached = Reached { limit: 11, heaviest: 6, trees: 2, trials: 2, floor: 1 };
    let ended = Within::Cover(Reached { limit: 4, trials: 6, floor: 4, ..reached });
    for (trials, due) in [(2, Within::Spent(reached)), (6, ended), (33, ended)] {
        buffer.fill(7);
        assert_eq!(plain.within(trials, &mut buffer), due);
        let trees = [(0, vec![0, 1]), (1, vec![])].map(|(start, edges)| Tree { start, edges });
        assert_eq!(Cover::read(&buffer), Some(Cover { trees: trees.to_vec() }));
        assert!(buffer[16..].iter().all(|&byte| byte == 7));
        assert_eq!(plain.check(&buffer[..16]), Ok(6));
        let alone = within(Kind::Rooted, 2, trials, &sheet, &mut buffer);
        assert_eq!(alone, due);
    }
    // 120 percent of 3, 150 of 3, 200 of 5 are 4, 5 and 10: the sum is 19.
    let listed = planner::Question { classes: Some(&[10, 20, 40]), ..plain };
    let due = Reached { limit: 19, heaviest: 9, ..reached };
    assert_eq!(listed.within(2, &mut buffer), Within::Spent(due));
    let listed = planner::Question { vans: Some(&[3, 0, 3, 0]), ..plain };
    let due = Reached { limit: 5, trials: 6, floor: 5, ..reached };
    assert_eq!(listed.within(33, &mut buffer), Within::Cover(due));
    assert_eq!(listed.best(&mut buffer), Reply::Cover { limit: 5, heaviest: 6, trees: 2 });
    let none = planner::Question { vans: Some(&[]), ..plain };
    assert_eq!(none.within(34, &mut buffer), Within::Refused(55));
    assert_eq!(none.within(2, &mut []), Within::Refused(55));
    assert_eq!(plain.within(34, &mut []), Within::Refused(23));
    for trials in [0, 1, 34, usize::MAX] {
        assert_eq!(plain.within(trials, &mut buffer), Within::Refused(56));
    }
    assert_eq!(within(Kind::Unrooted, 1, 2, &[2, 0, 0, 0], &mut buffer), Within::NoCover);
}
