//! Measuring planners on the same questions, in turn.

use std::hint::black_box;
use std::time::{Duration, Instant};

use crate::planners::Planner;
use crate::question::{Question, BUFFER, COVER, SPENT};

/// What is asked.
#[derive(Clone, Copy, Debug, PartialEq, Eq)]
pub enum Asked {
    /// The best limit.
    Best,
    /// The same in so many trials, fewer than it takes.
    Within(usize),
    /// A trial at the best limit.
    Trial,
    /// The check of the best limit's cover.
    Check,
    /// The walk of the tree of that cover that has the most edges.
    Walk,
}

/// A question with all that it needs; the limit and the cover are those of the plain version's best answer.
pub struct Measured<'a> {
    asked: Asked,
    question: Question<'a>,
    limit: u64,
    cover: Vec<u8>,
    tree: usize,
}

impl Measured<'_> {
    /// What is asked about a question.
    pub fn new(asked: Asked, question: Question) -> Measured {
        let (mut values, mut buffer) = ([0; 3], vec![0; BUFFER]);
        let case = Planner::Plain.best(question, &mut values, &mut buffer);
        assert_eq!(case, 0, "the graphs measured have covers");
        let cover = written(&buffer).to_vec();
        let tree = largest_tree(&cover);
        Measured { asked, question, limit: values[0], cover, tree }
    }

    /// Puts the question to a planner; of the six values it writes as many as it has.
    fn put(&self, planner: &Planner, values: &mut [u64; 6], buffer: &mut [u8]) -> u32 {
        let question = self.question;
        match self.asked {
            Asked::Best => planner.best(question, first(values), buffer),
            Asked::Within(trials) => planner.within(question, trials, values, buffer),
            Asked::Trial => planner.trial(question, self.limit, first(values), buffer),
            Asked::Check => planner.check(question, &self.cover, first(values)),
            Asked::Walk => planner.walk(question, &self.cover, self.tree, first(values), buffer),
        }
    }

    /// The case that is due.
    fn due(&self) -> u32 {
        match self.asked {
            Asked::Within(_) => SPENT,
            _ => COVER,
        }
    }

    /// Whether a planner takes the question. The library of an earlier state may not know its lists, not be asked for few
    /// trials, or refuse weightless edges.
    pub fn is_for(&self, planner: &Planner) -> bool {
        let few = matches!(self.asked, Asked::Within(_));
        if self.question.brought() & !planner.lists() != 0 || few && !planner.has_within() {
            return false;
        }
        let (mut values, mut buffer) = ([0; 6], vec![0; BUFFER]);
        !planner.is_earlier() || self.put(planner, &mut values, &mut buffer) != 16
    }

    /// Fails unless a planner's answer is right: the case, what the rules fix of the values, and a cover that the plain
    /// check says yes to; of a walk all values and bytes.
    pub fn assert_right(&self, planner: &Planner) {
        let (mut due, mut values) = ([0; 6], [0; 6]);
        let (mut right, mut buffer) = (vec![0; BUFFER], vec![0; BUFFER]);
        assert_eq!(self.put(&Planner::Plain, &mut due, &mut right), self.due());
        let case = self.put(planner, &mut values, &mut buffer);
        assert_eq!(case, self.due(), "a cover, yes or a walk is due");
        assert_eq!(values[0], due[0], "the limit, the heaviest of the check, or the stops");
        match self.asked {
            Asked::Best | Asked::Within(_) | Asked::Trial => {
                let mut heaviest = [0; 3];
                let cover = written(&buffer);
                let said = Planner::Plain.check(self.question, cover, &mut heaviest);
                assert_eq!((said, heaviest[0]), (0, values[1]), "the cover written");
                assert_eq!(values[2..], due[2..], "the trees, and what few trials say besides");
            }
            Asked::Check => {}
            Asked::Walk => assert!(values == due && buffer == right, "the walk"),
        }
    }
}

/// The first of the values.
fn first<const N: usize>(values: &mut [u64; 6]) -> &mut [u64; N] {
    values.first_chunk_mut().expect("no question has more values")
}

/// The field of two bytes at a place.
fn field(bytes: &[u8], at: usize) -> usize {
    usize::from(u16::from_le_bytes([bytes[at], bytes[at + 1]]))
}

/// The bytes of a cover at a buffer's front.
fn written(buffer: &[u8]) -> &[u8] {
    &buffer[..4 + 2 * field(buffer, 0) + 4 * field(buffer, 2)]
}

/// The tree of a cover that has the most edges, the lowest of several.
fn largest_tree(cover: &[u8]) -> usize {
    let (t, q) = (field(cover, 0), field(cover, 2));
    let of_tree = |tree: usize| (0..q).filter(move |i| field(cover, 4 + 2 * (t + i)) == tree);
    (0..t).rev().max_by_key(|&tree| of_tree(tree).count()).expect("a cover has a tree")
}

/// How long one measurement takes at least: short questions are put many times in a row.
const LEAST: Duration = Duration::from_micros(200);

/// The median time of a question for each planner, in microseconds. Each round measures every planner once, one after
/// the other, beginning with another one each time.
pub fn medians(question: &Measured, planners: &[Planner], rounds: usize) -> Vec<f64> {
    let (mut values, mut buffer) = ([0; 6], vec![0; BUFFER]);
    let mut measured = |planner: &Planner, times: u32| {
        let begin = Instant::now();
        for _ in 0..times {
            black_box(question.put(planner, &mut values, &mut buffer));
        }
        begin.elapsed()
    };
    let times_of = |planner: &Planner| {
        measured(planner, 3);
        let once = measured(planner, 3) / 3;
        1 + (LEAST.as_nanos() / once.as_nanos().max(1)).min(1_000) as u32
    };
    let times = planners.iter().map(times_of).max().unwrap_or(1);
    let mut all = vec![Vec::with_capacity(rounds); planners.len()];
    for round in 0..rounds {
        for turn in 0..planners.len() {
            let which = (round + turn) % planners.len();
            let taken = measured(&planners[which], times);
            all[which].push(taken.as_secs_f64() * 1e6 / f64::from(times));
        }
    }
    all.into_iter().map(median).collect()
}

/// The middle of some numbers.
fn median(mut numbers: Vec<f64>) -> f64 {
    numbers.sort_unstable_by(f64::total_cmp);
    numbers[numbers.len() / 2]
}
