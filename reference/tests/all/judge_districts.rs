//! Replies in full to the records of the program `districts`: this package's own and another planner's pass, wrong ones do
//! not.

use std::sync::OnceLock;

use crate::common::other::other_reply;
use crate::common::{made_records as made, sheet_n};
use reference::best;
use reference::districts::{encode as record_bytes, Asked, Record};
use reference::judge_districts::{judge_all, judge_reply, own_reply};
use reference::question::{Kind, BUFFER, LIMIT};
use reference::replies::{decode, encode, Full};

/// Every fifth of the records that a reply in full is due to.
fn some() -> &'static [Record] {
    static ONCE: OnceLock<Vec<Record>> = OnceLock::new();
    let asked = |record: &&Record| !matches!(record.asked, Asked::Check { .. });
    ONCE.get_or_init(|| made().iter().filter(asked).step_by(5).cloned().collect())
}

/// The bytes of a planner's replies to records.
fn replies(records: &[Record], planner: impl Fn(&Record) -> Option<Full>) -> Vec<u8> {
    records.iter().filter_map(planner).flat_map(|full| encode(&full)).collect()
}

/// This package's reply to a record that is no check.
fn own(record: &Record) -> Full {
    own_reply(record).expect("a trial or a best limit")
}

#[test]
fn our_own_replies_pass() {
    let asked = made().iter().filter_map(own_reply).count();
    assert_eq!(judge_all(made(), &replies(made(), own_reply)), Ok(asked));
}

#[test]
fn replies_with_other_choices_pass() {
    let mut differing = [0; 3];
    for record in made() {
        let (own, other) = (own_reply(record), other_reply(record));
        if let Some(other) = other.filter(|other| own.as_ref() != Some(other)) {
            assert_eq!(judge_reply(record, &other), Ok(()), "{other:?} to {record:?}");
            differing[other.case] += 1;
        }
    }
    assert!(differing[0] > 150 && differing[2] > 60, "{differing:?}");
}

/// The replies next to a right one: every number moved, added or taken away, and the bytes written cut, grown or touched,
/// so many of the first ones one by one.
fn near(full: &Full, fixed: usize) -> Vec<Full> {
    let mut all = Vec::new();
    let mut with = |change: &dyn Fn(&mut Full)| {
        let mut copy = full.clone();
        change(&mut copy);
        all.push(copy);
    };
    with(&|copy| copy.case += 1);
    with(&|copy| copy.case = (copy.case + 21) % 42);
    with(&|copy| copy.rest = 0);
    with(&|copy| copy.rest = 2);
    with(&|copy| copy.values.push(0));
    with(&|copy| copy.front.push(0xa5));
    with(&|copy| copy.front.extend([0; 32_708]));
    for i in 0..full.values.len() {
        with(&|copy| copy.values[i] += 1);
        with(&|copy| copy.values[i] = copy.values[i].wrapping_sub(1));
        with(&|copy| copy.values[i] += 1 << 32);
        with(&|copy| copy.values.truncate(i));
    }
    for i in 0..full.front.len().min(fixed) {
        with(&|copy| copy.front[i] ^= 1);
    }
    if !full.front.is_empty() {
        with(&|copy| copy.front.clear());
        with(&|copy| copy.front.truncate(copy.front.len() - 1));
        with(&|copy| *copy.front.last_mut().unwrap() ^= 128);
    }
    all
}

#[test]
fn changed_replies_do_not_pass() {
    let mut said_no = [0; 6];
    for record in some() {
        let full = own(record);
        assert_eq!(judge_reply(record, &full), Ok(()));
        // Where a choice is free, other bytes than the first four may be another allowed one.
        let is_whole = full.case == 0 && record_bytes(std::slice::from_ref(record))[10] == 1;
        for changed in near(&full, if is_whole { 40 } else { 4 }) {
            assert!(judge_reply(record, &changed).is_err(), "{changed:?} to {record:?}");
            said_no[full.case.min(5)] += 1;
        }
    }
    assert!(said_no.iter().all(|&count| count > 20), "{said_no:?}");
}

#[test]
fn replies_must_be_as_many_as_the_records() {
    let few = &some()[..150];
    let bytes = replies(few, own_reply);
    assert_eq!(judge_all(few, &bytes), Ok(150));
    for end in (bytes.len() - 40..bytes.len()).chain([0, 1, bytes.len() / 2]) {
        assert!(judge_all(few, &bytes[..end]).is_err(), "{end} bytes");
    }
    assert!(judge_all(few, &[&bytes[..], &[0]].concat()).is_err());
    assert!(judge_all(few, &[&bytes[..], &encode(&own(&few[0]))].concat()).is_err());
    assert!(judge_all(&few[1..], &bytes).is_err());
}

#[test]
fn a_wrong_reply_is_named_by_its_record() {
    let mut all: Vec<Full> = some().iter().map(own).collect();
    all[100].rest = 0;
    all[400].case += 1;
    let bytes: Vec<u8> = all.iter().flat_map(encode).collect();
    let wrong = judge_all(some(), &bytes).expect_err("two wrong replies");
    assert_eq!(wrong.len(), 2, "{wrong:?}");
    assert!(wrong[0].starts_with("record 100 (") && wrong[1].starts_with("record 400 ("));
}

/// A reply without bytes written.
fn bare(case: usize, values: &[u64]) -> Full {
    Full { case, values: values.to_vec(), front: vec![], rest: 1 }
}

/// How many of a planner's replies to some records are wrong.
fn wrong(planner: impl Fn(&Record) -> Full) -> usize {
    let bytes = replies(some(), |record| Some(planner(record)));
    judge_all(some(), &bytes).err().map_or(0, |wrong| wrong.len())
}

#[test]
fn planners_that_cheat_do_not_pass() {
    let unwritten = |record: &Record| Full { front: vec![], ..own(record) };
    let of_other_limit = |record: &Record| {
        let Asked::Trial { limit, room } = record.asked else { return own(record) };
        let asked = Asked::Trial { limit: (limit + 1).min(LIMIT), room };
        let mut full = own(&Record { asked, ..record.clone() });
        if full.case == 0 {
            full.values[0] = limit;
        }
        full
    };
    let of_other_kind = |record: &Record| {
        let kind = if record.kind == Kind::Rooted { Kind::Unrooted } else { Kind::Rooted };
        own(&Record { kind, ..record.clone() })
    };
    let unlisted = |record: &Record| own(&Record { classes: None, ..record.clone() });
    let without_vans = |record: &Record| own(&Record { vans: None, ..record.clone() });
    let rows: [(&str, usize); 9] = [
        ("always refused", wrong(|_| bare(21, &[]))),
        ("always too low, stop", wrong(|_| bare(1, &[2]))),
        ("always too low, needs", wrong(|record| bare(3, &[record.k as u64 + 1]))),
        ("always no cover", wrong(|_| bare(4, &[]))),
        ("nothing written", wrong(unwritten)),
        ("the reply to a limit one higher", wrong(of_other_limit)),
        ("the reply of the other kind", wrong(of_other_kind)),
        ("the reply without the list of classes", wrong(unlisted)),
        ("the reply without the list of vans", wrong(without_vans)),
    ];
    for (name, count) in rows {
        assert!(count > 100, "{name}: {count} wrong of {}", some().len());
    }
}

#[test]
fn a_limit_that_was_not_searched_for_does_not_pass() {
    let mut said_no = 0;
    for record in made().iter().filter(|record| matches!(record.asked, Asked::Best { .. })) {
        let Some(Full { case: 0, .. }) = own_reply(record) else { continue };
        let graph = record.brought().graph().expect("an answered question");
        let limit = graph.total();
        let crews = record.brought().crews(record.kind, graph.n, record.k as u64);
        let found = best::search(record.kind, &graph, crews.expect("roots")).expect("a cover").0;
        let asked = Asked::Trial { limit, room: record.room() };
        let at_the_sum = own(&Record { asked, ..record.clone() });
        assert_eq!(judge_reply(record, &at_the_sum).is_ok(), limit == found, "{record:?}");
        said_no += usize::from(limit != found);
    }
    assert!(said_no > 150, "{said_no}");
}

/// The reply of the best limit, of one trial more and of p 2 passes exactly where high is the same; so does "no cover", and the
/// refusal of a wrong number of trials is none of them.
#[test]
fn a_number_of_trials_is_kept_to() {
    let mut said_no = [0; 4];
    for record in made() {
        let Asked::Within { trials, room } = record.asked else { continue };
        let due = own(record);
        let others = [
            Asked::Best { room },
            Asked::Within { trials: (trials + 1).min(33), room },
            Asked::Within { trials: 2, room },
            Asked::Within { trials: 0, room },
        ];
        for (other, said_no) in others.into_iter().zip(&mut said_no) {
            let full = own(&Record { asked: other, ..record.clone() });
            let is_same = full.case == due.case && full.values.first() == due.values.first();
            assert_eq!(judge_reply(record, &full).is_ok(), is_same, "{full:?} to {record:?}");
            *said_no += usize::from(!is_same);
        }
    }
    assert!(said_no.iter().all(|&count| count > 150), "{said_no:?}");
}

#[test]
fn a_reply_is_read_as_it_was_written() {
    let full = Full { case: 2, values: vec![1 << 40, 7], front: vec![9, 8, 7], rest: 1 };
    let bytes = encode(&full);
    let due = [
        &[2, 0, 2, 0][..],
        &[0, 0, 0, 0, 0, 1, 0, 0, 7, 0, 0, 0, 0, 0, 0, 0],
        &[3, 0, 0, 0, 9, 8, 7, 1],
    ];
    assert_eq!(bytes, due.concat());
    assert_eq!(decode(&[&bytes[..], &[5]].concat()), Some((full, &[5][..])));
    (0..bytes.len()).for_each(|end| assert_eq!(decode(&bytes[..end]), None));
    let asked = Asked::Trial { limit: 4, room: BUFFER };
    let record = Record::plain(asked, Kind::Rooted, 2, &sheet_n());
    let cover = [2, 0, 2, 0, 0, 0, 1, 0, 0, 0, 0, 0, 0, 0, 1, 0].to_vec();
    let due = Full { case: 0, values: vec![4, 6, 2], front: cover, rest: 1 };
    assert_eq!(own(&record), due);
}
