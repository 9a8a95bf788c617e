//! The best limit in few trials: the answers of the quick version, and of the linked library where it is linked, against
//! `reference/`. The same number and values; of the cover and its heaviest weight its judge says whether they are allowed.

use bench::made::{sheet, spread, Shape, SHAPES, SIZES};
use bench::planners::{linked, Planner};
use bench::question::{Question, COVER, NO_COVER, SPENT, TRIALS};
use reference::brought::Brought;
use reference::districts::Asked;
use reference::judge::{within_with, Reply};
use reference::made_shapes::{any_weights, graph, POSITIVE, SHAPES as ALL_SHAPES};
use reference::made_within::within;
use reference::question::{Answer, Kind, BUFFER};
use reference::random::Random;
use reference::within::{best_within_with, Within};

/// What stands in the values and the buffer before a question.
const VALUE: u64 = 0x1111_2222_3333_4444;
const FILL: u8 = 0xa5;

const BOTH: [Kind; 2] = [Kind::Rooted, Kind::Unrooted];

/// A question that is put to all.
#[derive(Clone, Copy, Debug)]
struct Put<'a> {
    kind: Kind,
    k: usize,
    brought: Brought<'a>,
}

/// A planner's number, values and buffer.
type Got = (u32, [u64; 6], Vec<u8>);

impl Put<'_> {
    /// What a planner answers in so many trials, with so many bytes of room.
    fn asked(self, planner: &Planner, trials: u64, room: usize) -> Got {
        let (mut values, mut buffer) = ([VALUE; 6], vec![FILL; room]);
        let case = planner.within(self.question(), trials as usize, &mut values, &mut buffer);
        (case, values, buffer)
    }

    fn question(&self) -> Question<'_> {
        let Brought { sheet, classes, vans } = self.brought;
        Question { kind: self.kind as u32, k: self.k, sheet, classes, vans }
    }

    /// Puts the question to every planner, and gives the answer due.
    fn held(self, trials: u64, room: usize) -> Within {
        let Put { kind, k, brought } = self;
        let due = best_within_with(kind, brought, k as u64, trials, &mut vec![FILL; room]);
        let before = vec![FILL; room];
        for planner in linked().into_iter().chain([Planner::Plain]) {
            let (case, values, after) = self.asked(&planner, trials, room);
            let name = planner.name();
            let (number, fixed, answer) = allowed(&due, &values, &after);
            assert_eq!((case, values), (number, fixed), "{name} {self:?} {trials} {room}");
            let reply = Reply { answer: &answer, before: &before, after: &after };
            let said = within_with(kind, brought, k as u64, trials, reply);
            said.unwrap_or_else(|why| panic!("{name} {self:?} {trials} {room}: {why}"));
        }
        due
    }

    /// Every number of trials, lawful or not: with more the floor never falls and the limit never rises.
    fn every_number(self, met: &mut [usize; 64]) {
        let (mut least, mut most) = (0, u64::MAX);
        for trials in 0..=35 {
            let due = self.held(trials, BUFFER);
            met[number(&due) as usize] += 1;
            if let Within::Cover { high, floor, .. } = due {
                assert!(least <= floor && floor <= high && high <= most, "{self:?} {trials}");
                (least, most) = (floor, high);
            }
        }
    }
}

/// The number of an answer.
fn number(due: &Within) -> u32 {
    match *due {
        Within::Cover { spent, .. } => [COVER, SPENT][usize::from(spent)],
        Within::NoCover => NO_COVER,
        Within::Refused(number) => number.into(),
    }
}

/// The number and the values due, with the heaviest weight that was said, which the judge looks at, and the trees written; and
/// what was said, for the judge.
fn allowed(due: &Within, values: &[u64; 6], after: &[u8]) -> (u32, [u64; 6], Answer) {
    let (values, answer) = match *due {
        Within::Cover { high, trials, floor, spent, .. } => {
            let (heaviest, trees) = (values[1], u64::from(after[0]));
            let values = [high, heaviest, trees, trials, floor, spent.into()];
            (values, Answer::Cover { limit: high, heaviest })
        }
        Within::NoCover => ([VALUE; 6], Answer::NoCover),
        Within::Refused(number) => ([VALUE; 6], Answer::Refused(number)),
    };
    (number(due), values, answer)
}

/// Fails unless each of some numbers is met.
fn assert_met(met: &[usize; 64], numbers: &[usize]) {
    for &number in numbers {
        assert!(met[number] > 0, "{number} is not met");
    }
}

/// The records that are made with a number of trials: by hand, with every other refusal beside 56, and the largest.
#[test]
fn records_are_answered_as_the_reference_allows() {
    let mut met = [0; 64];
    for record in within() {
        let Asked::Within { trials, room } = record.asked else {
            panic!("a number of trials is asked for");
        };
        let put = Put { kind: record.kind, k: record.k, brought: record.brought() };
        met[number(&put.held(trials, room)) as usize] += 1;
    }
    assert_met(&met, &[0, 4, 5, 11, 12, 13, 14, 15, 16, 53, 54, 21, 55, 23, 56]);
}

/// Both kinds on a graph's bytes for k trees, alone, with classes, with vans and with both, in every number of trials.
fn with_every_list(random: &mut Random, n: usize, k: usize, sheet: &[u8], met: &mut [usize; 64]) {
    let m = (sheet.len() - 4) / 8;
    let classes: Vec<u8> = (0..m).map(|_| random.below(64) as u8).collect();
    let vans: Vec<u8> = (0..k).flat_map(|_| (random.below(n) as u16).to_le_bytes()).collect();
    for classes in [None, Some(&classes[..])] {
        for vans in [None, Some(&vans[..])] {
            let brought = Brought { sheet, classes, vans };
            for kind in BOTH {
                Put { kind, k, brought }.every_number(met);
            }
        }
    }
}

/// Random graphs, some of them apart, and with weightless edges; k may be above n.
#[test]
fn every_number_of_trials_on_random_graphs() {
    let (mut random, mut met) = (Random::new(61), [0; 64]);
    for turn in 0..120 {
        let (n, k) = (random.between(1, 9), random.between(1, 6));
        let m = random.below(3 * n + 2);
        let graph = random.any_graph(n, m, [2, 40, 500_000][turn % 3]);
        with_every_list(&mut random, n, k, &graph.to_sheet(), &mut met);
    }
    assert_met(&met, &[0, 4, 5, 21, 56]);
}

#[test]
fn every_number_of_trials_on_shapes() {
    let (mut random, mut met) = (Random::new(62), [0; 64]);
    for turn in 0..6 {
        for shape in ALL_SHAPES {
            let n = random.between(2, if turn == 0 { 40 } else { 12 });
            let k = random.between(1, n.min(5));
            let weights = any_weights(&mut random, &POSITIVE);
            let graph = graph(&mut random, shape, n, k, weights);
            with_every_list(&mut random, n, k, &graph.to_sheet(), &mut met);
        }
    }
    assert_met(&met, &[0, 5, 56]);
}

/// The graphs that are measured, in as many trials as are measured and some more: at full size the random one alone.
#[test]
fn measured_graphs() {
    let smaller = SIZES[1..].iter().flat_map(|&size| SHAPES.map(|shape| (shape, size)));
    for (shape, size) in smaller.chain([(Shape::Random, SIZES[0])]) {
        let (sheet, list) = (sheet(shape, &size), spread(&size));
        for vans in [None, Some(&list[..])] {
            let brought = Brought { vans, ..Brought::plain(&sheet) };
            for put in BOTH.map(|kind| Put { kind, k: size.k, brought }) {
                for trials in [2, 4, 8, 12] {
                    let due = put.held(trials, BUFFER);
                    assert_eq!(number(&due), SPENT, "{shape:?} {size:?} {trials}");
                }
            }
        }
    }
}

/// With the most trials all is as the best limit has it, byte by byte, and the floor is the limit.
#[test]
fn the_most_trials_come_to_the_best_limit() {
    let mut random = Random::new(63);
    for turn in 0..300 {
        let n = random.between(1, 40);
        let k = random.between(1, n.min(32));
        let m = random.below(4 * n);
        let sheet = random.any_graph(n, m, [3, 1_000, 1_000_000][turn % 3]).to_sheet();
        for put in BOTH.map(|kind| Put { kind, k, brought: Brought::plain(&sheet) }) {
            for planner in linked().into_iter().chain([Planner::Plain]) {
                let (mut first, mut right) = ([VALUE; 3], vec![FILL; BUFFER]);
                let due = planner.best(put.question(), &mut first, &mut right);
                let (case, values, buffer) = put.asked(&planner, *TRIALS.end() as u64, BUFFER);
                assert_eq!((case, &values[..3]), (due, &first[..]), "{put:?}");
                assert!(buffer == right, "{put:?}");
                assert!(case == NO_COVER || values[4..] == [values[0], 0], "{put:?} {values:?}");
            }
        }
    }
}
