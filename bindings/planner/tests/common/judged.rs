//! Questions put to every function that takes them, and the replies held to `reference/`.

use super::call::{call, Asked, Got, Question, Through, CLASSES, VANS};
use super::trials;
use planner::{best, check, trial, walk, within, Kind, Reached, Reply, Walk, Within};
use reference::brought::Brought;
use reference::bytes::two;
use reference::check::check_with;
use reference::graph::read;
use reference::judge::{self, Reply as Given};
use reference::question::{Answer, Kind as Crews};
use reference::random::Random;
use reference::vans::bytes;
use reference::walk::walk_with;

/// The case of a question that is put as by [`answered`].
pub fn judged(random: &mut Random, question: &Question) -> u32 {
    answered(random, question).case
}

/// Puts a question to the exported functions and to the wrappers, and judges the replies, which must be the same; gives what
/// came of it.
pub fn answered(random: &mut Random, question: &Question) -> Got {
    let seed = random.next_number();
    let got = call(seed, question, question.general());
    let same = |through| {
        assert!(call(seed, question, through) == got, "{} {through:?}", brief(question));
    };
    if is_plain(question) {
        same(Through::Plain);
    }
    let (in_row, throughout) = as_no_lists(question);
    for (class_bit, classes) in ways_of_classes(question, &throughout) {
        for (other_bits, vans) in ways_of_vans(question, in_row.as_deref()) {
            same(Through::General { brought: class_bit | other_bits, classes, vans });
        }
    }
    if let Err(why) = right(question, &got) {
        panic!("{}: {why}", brief(question));
    }
    same_by_the_wrappers(question, &got);
    got
}

/// Whether the functions of questions without lists take it: vans beside an unrooted question are as none.
fn is_plain(question: &Question) -> bool {
    question.classes.is_none() && (question.vans.is_none() || question.kind != 0)
}

/// Lists that are as none: the vans 0 to k - 1, unless these would be 55 where no list is 21, and class 60 throughout.
fn as_no_lists(question: &Question) -> (Option<Vec<u8>>, Vec<u8>) {
    let (sheet, k) = (read(question.sheet), question.k);
    let (n, m) = sheet.as_ref().map_or((256, 3), |graph| (graph.n, graph.edges.len()));
    let in_row: Vec<usize> = (0..k.min(40)).collect();
    let is_as_none = k <= n || k > 32;
    (is_as_none.then(|| bytes(&in_row)), vec![60; m])
}

/// A way to bring a list or not: its bit and its bytes.
type Way<'a> = (u32, &'a [u8]);

/// The bits past those of the lists, which are not read.
const PAST: u32 = !(CLASSES | VANS);

/// Ways to bring class bytes that must all say the same. Bytes that are not brought are not read.
fn ways_of_classes<'a>(question: &Question<'a>, throughout: &'a [u8]) -> Vec<Way<'a>> {
    match question.classes {
        Some(classes) => vec![(CLASSES, classes)],
        None => vec![(0, &[]), (0, &[40; 5]), (CLASSES, throughout)],
    }
}

/// The same of vans, with every bit but that of classes. Beside an unrooted question no bytes are read, brought or not.
fn ways_of_vans<'a>(question: &Question<'a>, in_row: Option<&'a [u8]>) -> Vec<Way<'a>> {
    const WRONG: &[u8] = &[255; 5];
    let mut ways = match question.vans {
        Some(vans) => vec![(VANS, vans), (VANS | PAST, vans)],
        None => vec![(PAST, WRONG)],
    };
    if question.kind != 0 {
        ways.extend([(0, &[0, 0][..]), (VANS, &[]), (VANS | PAST, WRONG)]);
    } else if question.vans.is_none() {
        ways.extend(in_row.map(|vans| (VANS, vans)));
    }
    ways
}

/// A question in short.
fn brief(question: &Question) -> String {
    let Question { asked, kind, k, sheet, classes, vans } = question;
    let front = &sheet[..sheet.len().min(200)];
    format!("{asked:?} kind {kind} k {k} sheet {front:?} classes {classes:?} vans {vans:?}")
}

/// Whether what came of a question is what the reference allows.
fn right(question: &Question, got: &Got) -> Result<(), String> {
    let Question { asked, kind, k, sheet, classes, vans } = *question;
    let (crews, k) = (if kind == 0 { Crews::Rooted } else { Crews::Unrooted }, k as u64);
    let brought = Brought { sheet, classes, vans };
    let mut due = got.buffer.0.clone();
    match asked {
        Asked::Trial { limit, .. } => {
            let answer = answer(got);
            let given = Given { answer: &answer, before: &got.buffer.0, after: &got.buffer.1 };
            judge::trial_with(crews, brought, k, limit, given)
        }
        Asked::Best { .. } => {
            let answer = answer(got);
            let given = Given { answer: &answer, before: &got.buffer.0, after: &got.buffer.1 };
            judge::best_with(crews, brought, k, given)
        }
        Asked::Within { trials, .. } => trials::right(crews, brought, k, trials as u64, got),
        Asked::Check { cover } => {
            let said = check_with(crews, brought, k, cover);
            exactly(got, said.map(|heaviest| vec![heaviest]), &due)
        }
        Asked::Walk { cover, tree, .. } => {
            let said = walk_with(crews, brought, k, cover, tree, &mut due);
            exactly(got, said.map(|(stops, length)| vec![stops as u64, length]), &due)
        }
    }
}

/// The number, the values and the buffer are those due; values past those due are as they came.
fn exactly(got: &Got, due: Result<Vec<u64>, u16>, buffer: &[u8]) -> Result<(), String> {
    let (case, mut values) = due.map_or_else(|number| (number.into(), vec![]), |due| (0, due));
    values.extend_from_slice(&got.values.0[values.len()..]);
    if (got.case, &got.values.1) != (case, &values) {
        return Err(format!("{case} {values:?} is due, not {} {:?}", got.case, got.values.1));
    }
    if got.buffer.1 != buffer {
        return Err("the buffer is not as it is due".to_string());
    }
    Ok(())
}

/// The answer of a trial or a best limit; the values that the case does not have must be as they came.
fn answer(got: &Got) -> Answer {
    let values = &got.values.1;
    let (answer, count) = match got.case {
        0 => (Answer::Cover { limit: values[0], heaviest: values[1] }, 3),
        1 => (Answer::Stop(values[0] as usize), 1),
        2 => (Answer::Parts { parts: values[0] as usize, roots: values[1] as usize }, 2),
        3 => (Answer::Needs(values[0]), 1),
        4 => (Answer::NoCover, 0),
        number => (Answer::Refused(number as u16), 0),
    };
    assert_eq!(values[count..], got.values.0[count..], "values behind those of the case");
    if got.case == 0 {
        assert_eq!(values[2], two(&got.buffer.1, 0) as u64, "the number of trees");
    }
    answer
}

/// The wrappers give the same replies and the same bytes: those of a question, and those without lists.
fn same_by_the_wrappers(question: &Question, got: &Got) {
    let Question { asked, kind, k, sheet, classes, vans } = *question;
    let unread = (kind != 0).then_some(Some(&[255; 5][..]));
    let kind = if kind == 0 { Kind::Rooted } else { Kind::Unrooted };
    for vans in [vans].into_iter().chain(unread) {
        let whole = planner::Question { classes, vans, ..planner::Question::new(kind, k, sheet) };
        same(got, |buffer| by_question(&whole, asked, buffer));
    }
    if is_plain(question) {
        same(got, |buffer| by_function(kind, k, sheet, asked, buffer));
    }
}

/// A number and the values of its case.
type Said = (u32, Vec<u64>);

/// What a wrapper says and writes, lent the same bytes, is what came of the question.
fn same(got: &Got, say: impl FnOnce(&mut [u8]) -> Said) {
    let mut buffer = got.buffer.0.clone();
    let (case, values) = say(&mut buffer);
    assert_eq!((case, &values[..]), (got.case, &got.values.1[..values.len()]), "the wrapper's");
    assert!(buffer == got.buffer.1, "the wrapper's bytes differ");
}

/// What the wrapper's question says.
fn by_question(whole: &planner::Question, asked: Asked, buffer: &mut [u8]) -> Said {
    match asked {
        Asked::Trial { limit, .. } => of_reply(whole.trial(limit, buffer)),
        Asked::Best { .. } => of_reply(whole.best(buffer)),
        Asked::Within { trials, .. } => of_within(whole.within(trials, buffer)),
        Asked::Check { cover } => of_check(whole.check(cover)),
        Asked::Walk { cover, tree, .. } => of_walk(whole.walk(cover, tree, buffer), buffer),
    }
}

/// What the wrapper's functions without lists say.
fn by_function(kind: Kind, k: usize, sheet: &[u8], asked: Asked, buffer: &mut [u8]) -> Said {
    match asked {
        Asked::Trial { limit, .. } => of_reply(trial(kind, k, limit, sheet, buffer)),
        Asked::Best { .. } => of_reply(best(kind, k, sheet, buffer)),
        Asked::Within { trials, .. } => of_within(within(kind, k, trials, sheet, buffer)),
        Asked::Check { cover } => of_check(check(kind, k, sheet, cover)),
        Asked::Walk { cover, tree, .. } => {
            of_walk(walk(kind, k, sheet, cover, tree, buffer), buffer)
        }
    }
}

fn of_reply(reply: Reply) -> Said {
    match reply {
        Reply::Cover { limit, heaviest, trees } => (0, vec![limit, heaviest, trees]),
        Reply::TooLowStop { vertex } => (1, vec![vertex]),
        Reply::TooLowParts { parts, roots } => (2, vec![parts, roots]),
        Reply::TooLowNeeds { trees } => (3, vec![trees]),
        Reply::NoCover => (4, vec![]),
        Reply::Refused(number) => (number, vec![]),
    }
}

fn of_within(told: Within) -> Said {
    let values = |reached: Reached, spent: u64| {
        let Reached { limit, heaviest, trees, trials, floor } = reached;
        vec![limit, heaviest, trees, trials, floor, spent]
    };
    match told {
        Within::Cover(reached) => (0, values(reached, 0)),
        Within::Spent(reached) => (5, values(reached, 1)),
        Within::NoCover => (4, vec![]),
        Within::Refused(number) => (number, vec![]),
    }
}

fn of_check(verdict: Result<u64, u32>) -> Said {
    verdict.map_or_else(|number| (number, vec![]), |heaviest| (0, vec![heaviest]))
}

/// The same of a walk, whose stops are read from as many bytes and from more, but not from fewer.
fn of_walk(walked: Result<Walk, u32>, buffer: &[u8]) -> Said {
    let walk = match walked {
        Ok(walk) => walk,
        Err(number) => return (number, vec![]),
    };
    let count = walk.stops as usize;
    let stops: Vec<usize> = (0..count).map(|i| two(buffer, 2 * i)).collect();
    assert_eq!(walk.read(&buffer[..2 * count - 1]), None);
    assert_eq!(walk.read(&buffer[..2 * count]).as_ref(), Some(&stops));
    assert_eq!(walk.read(buffer), Some(stops));
    (0, vec![walk.stops, walk.length])
}
