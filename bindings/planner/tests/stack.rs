//! The stack that the documentation names is enough, with lists and without. Where it is not, the run of these tests ends in a
//! fault. What takes up to 4 KiB is given 32, and up to 12 is given 40: a thread has some of its own to keep there.

use planner::{
    best, check, trial, walk, within, Cover, Kind, Question, Reached, Reply, Walk, Within,
};
use planner::{BUFFER, MOST_TRIALS, WALK_BUFFER};
use reference::cover::{encode, Tree};
use reference::graph::sheet;
use reference::vans::bytes;
use std::thread::Builder;

const KINDS: [Kind; 2] = [Kind::Rooted, Kind::Unrooted];

/// No list, and one that doubles each weight of the path below.
const LISTS: [Option<&[u8]>; 2] = [None, Some(&[40; 255])];

/// What the work gives in a thread of its own with so many KiB of stack.
fn in_thread<T: Send + 'static>(kib: usize, work: impl FnOnce() -> T + Send + 'static) -> T {
    Builder::new().stack_size(kib << 10).spawn(work).unwrap().join().unwrap()
}

/// A path of all 256 vertices from vertex 0: the walks go deepest from one root at its end.
fn path() -> Vec<u8> {
    let lines: Vec<_> = (1..256).map(|end| (end - 1, end, 1)).collect();
    sheet(256, &lines)
}

/// What is asked about the path with a list or without, in a thread of its own with so many KiB of stack.
fn about_the_path<T: Send + 'static>(
    kib: usize,
    kind: Kind,
    k: usize,
    classes: Option<&'static [u8]>,
    work: impl FnOnce(Question) -> T + Send + 'static,
) -> T {
    in_thread(kib, move || work(Question { classes, ..Question::new(kind, k, &path()) }))
}

/// Searches of two trials, of some and of all, in turn: the last one must be that of the best limit.
fn searched(reply: Reply, search: impl Fn(usize) -> Within) {
    for trials in [2, 5, MOST_TRIALS] {
        let told = search(trials);
        match told {
            Within::Spent(_) => assert!(trials < MOST_TRIALS),
            Within::Cover(Reached { limit, heaviest, trees, .. }) => {
                assert_eq!(trials, MOST_TRIALS);
                assert_eq!(reply, Reply::Cover { limit, heaviest, trees });
            }
            _ => panic!("{told:?}"),
        }
    }
}

/// The bytes of one tree with all edges.
fn whole_tree(start: u16) -> Vec<u8> {
    let fields = [1, 255, start].into_iter().chain([0; 255]).chain(0..255);
    fields.flat_map(u16::to_le_bytes).collect()
}

#[test]
fn the_deepest_questions() {
    for kind in KINDS {
        for k in [1, 32] {
            let (reply, buffer) = in_thread(320, move || {
                let mut buffer = vec![0; BUFFER];
                (best(kind, k, &path(), &mut buffer), buffer)
            });
            let Reply::Cover { limit, heaviest, .. } = reply else { panic!("{reply:?}") };
            let length = Cover::length(&buffer).unwrap();
            let filed = move || check(kind, k, &path(), &buffer[..length]);
            assert_eq!(in_thread(32, filed), Ok(heaviest));
            let tried = move || trial(kind, k, limit, &path(), &mut vec![0; BUFFER]);
            assert_eq!(in_thread(320, tried), reply);
            searched(reply, |trials| {
                in_thread(320, move || within(kind, k, trials, &path(), &mut vec![0; BUFFER]))
            });
        }
    }
}

/// The same by the general functions.
#[test]
fn the_deepest_questions_with_lists() {
    for (kind, k) in KINDS.into_iter().flat_map(|kind| [(kind, 1), (kind, 32)]) {
        for list in LISTS {
            let (reply, buffer) = about_the_path(320, kind, k, list, |question| {
                let mut buffer = vec![0; BUFFER];
                (question.best(&mut buffer), buffer)
            });
            let Reply::Cover { limit, heaviest, .. } = reply else { panic!("{reply:?}") };
            let length = Cover::length(&buffer).unwrap();
            let filed = move |question: Question| question.check(&buffer[..length]);
            assert_eq!(about_the_path(32, kind, k, list, filed), Ok(heaviest));
            let tried = move |question: Question| question.trial(limit, &mut vec![0; BUFFER]);
            assert_eq!(about_the_path(320, kind, k, list, tried), reply);
            searched(reply, |trials| {
                let search =
                    move |question: Question| question.within(trials, &mut vec![0; BUFFER]);
                about_the_path(320, kind, k, list, search)
            });
        }
    }
}

/// One tree with all edges, from an end of the path and from its middle; and walks of that cover that are refused.
#[test]
fn the_longest_walks() {
    for start in [0, 128, 255] {
        for (tree, room, due) in [
            (0, WALK_BUFFER, Ok(Walk { stops: 511, length: 510 })),
            (1, WALK_BUFFER, Err(51)),
            (0, WALK_BUFFER - 1, Err(52)),
        ] {
            let walked = move || {
                walk(Kind::Unrooted, 1, &path(), &whole_tree(start), tree, &mut vec![0; room])
            };
            assert_eq!(in_thread(40, walked), due);
            for list in LISTS {
                let walked = move |question: Question| {
                    question.walk(&whole_tree(start), tree, &mut vec![0; room])
                };
                let times = if list.is_some() { 2 } else { 1 };
                let due = due.map(|walk| Walk { length: times * walk.length, ..walk });
                assert_eq!(about_the_path(40, Kind::Unrooted, 1, list, walked), due);
            }
        }
    }
}

#[test]
fn refusals() {
    for kind in KINDS {
        let tried = move || trial(kind, 33, 1, &path(), &mut vec![0; BUFFER]);
        assert_eq!(in_thread(32, tried), Reply::Refused(21));
        let asked = move || best(kind, 32, &path(), &mut vec![0; BUFFER - 1]);
        assert_eq!(in_thread(32, asked), Reply::Refused(23));
        for (k, trials, due) in [(33, 2, 21), (32, 1, 56), (32, 34, 56), (1, usize::MAX, 56)] {
            let search = move || within(kind, k, trials, &path(), &mut vec![0; BUFFER]);
            assert_eq!(in_thread(32, search), Within::Refused(due));
        }
        let walked = move || walk(kind, 33, &path(), &[], 0, &mut vec![0; WALK_BUFFER]);
        assert_eq!(in_thread(40, walked), Err(21));
    }
}

/// The same by the general functions, and a list that is too short.
#[test]
fn refusals_with_lists() {
    for kind in KINDS {
        let lists = [(LISTS[0], 21, 23), (LISTS[1], 21, 23), (Some(&[40; 254][..]), 53, 53)];
        for (list, crews, room) in lists {
            let tried = |question: Question| question.trial(1, &mut vec![0; BUFFER]);
            assert_eq!(about_the_path(32, kind, 33, list, tried), Reply::Refused(crews));
            let asked = |question: Question| question.best(&mut vec![0; BUFFER - 1]);
            assert_eq!(about_the_path(32, kind, 32, list, asked), Reply::Refused(room));
            let search = |question: Question| question.within(2, &mut vec![0; BUFFER - 1]);
            assert_eq!(about_the_path(32, kind, 32, list, search), Within::Refused(room));
            let filed = |question: Question| question.check(&[]);
            assert_eq!(about_the_path(32, kind, 33, list, filed), Err(crews));
            let walked = |question: Question| question.walk(&[], 0, &mut vec![0; WALK_BUFFER]);
            assert_eq!(about_the_path(40, kind, 33, list, walked), Err(crews));
        }
    }
}

/// A path of all 256 vertices, each step of which is eight edges or nine: 2,048 edges.
fn largest_sheet() -> Vec<u8> {
    let lines: Vec<_> = (0..2_048).map(|e| (e % 255, e % 255 + 1, 1 + e as u64 % 9)).collect();
    sheet(256, &lines)
}

/// Vans on 256 vertices: one at either end, 32 at either end, in the middle, at both ends by turns, and at 32 vertices.
fn lists_of_vans() -> Vec<Vec<u8>> {
    let one = [0, 255].map(|end| vec![end]);
    let many = [0, 128, 255].map(|at| vec![at; 32]);
    let apart = [(0..32).map(|j| 255 * (j % 2)).collect(), (0..32).map(|j| 255 - 8 * j).collect()];
    one.iter().chain(&many).chain(&apart).map(|vans: &Vec<usize>| bytes(vans)).collect()
}

/// A rooted question with vans, and with classes or not.
#[derive(Clone)]
struct Manned {
    k: usize,
    sheet: Vec<u8>,
    vans: Vec<u8>,
    classes: Option<&'static [u8]>,
}

impl Manned {
    /// What is asked about it in a thread of its own with so many KiB of stack.
    fn in_thread<T: Send + 'static>(
        &self,
        kib: usize,
        work: impl FnOnce(Question) -> T + Send + 'static,
    ) -> T {
        let Manned { k, sheet, vans, classes } = self.clone();
        in_thread(kib, move || {
            let plain = Question::new(Kind::Rooted, k, &sheet);
            work(Question { classes, vans: Some(&vans), ..plain })
        })
    }

    /// The check of a cover, which must say yes with this weight, and the walk of each of its trees.
    fn follow(&self, cover: &[u8], heaviest: u64) {
        let filed = cover.to_vec();
        assert_eq!(self.in_thread(32, move |question| question.check(&filed)), Ok(heaviest));
        for tree in 0..self.k {
            let filed = cover.to_vec();
            let walk = self.in_thread(40, move |question| {
                question.walk(&filed, tree, &mut vec![0; WALK_BUFFER])
            });
            assert!(walk.is_ok_and(|walk| walk.length <= 2 * heaviest), "{walk:?}");
        }
    }
}

/// Up to 32 vans on the deepest sheet and on the largest: the best limit, trials, the check and every walk.
#[test]
fn the_deepest_questions_with_vans() {
    let sheets = [(path(), LISTS), (largest_sheet(), [None, Some(&[40; 2_048][..])])];
    for (vans, (sheet, classes)) in
        lists_of_vans().iter().flat_map(|vans| sheets.iter().map(move |sheet| (vans, sheet)))
    {
        for &classes in classes {
            let (sheet, vans) = (sheet.clone(), vans.clone());
            let manned = Manned { k: vans.len() / 2, sheet, vans, classes };
            let (reply, buffer) = manned.in_thread(320, |question| {
                let mut buffer = vec![0; BUFFER];
                (question.best(&mut buffer), buffer)
            });
            let Reply::Cover { limit, heaviest, .. } = reply else { panic!("{reply:?}") };
            manned.follow(&buffer[..Cover::length(&buffer).unwrap()], heaviest);
            let tried = move |question: Question| question.trial(limit, &mut vec![0; BUFFER]);
            assert_eq!(manned.in_thread(320, tried), reply);
            let tried = move |question: Question| question.trial(limit - 1, &mut vec![0; BUFFER]);
            searched(reply, |trials| {
                manned.in_thread(320, move |question| question.within(trials, &mut vec![0; BUFFER]))
            });
            let low = manned.in_thread(320, tried);
            assert!(!matches!(low, Reply::Cover { .. } | Reply::Refused(_)), "{low:?}");
        }
    }
}

/// The largest cover: 32 trees from one vertex with all edges of the path each.
#[test]
fn the_largest_cover() {
    let cover = encode(&vec![Tree::new(255, (0..255).collect()); 32]);
    for (classes, weight) in [(LISTS[0], 255), (LISTS[1], 510)] {
        let manned = Manned { k: 32, sheet: path(), vans: bytes(&[255; 32]), classes };
        manned.follow(&cover, weight);
    }
}

/// Lists of vans that are wrong: all at vertex 256, the last at it, a byte less and a byte more.
#[test]
fn refusals_with_vans() {
    let mut last = [255; 32];
    last[31] = 256;
    for vans in [bytes(&[256; 32]), bytes(&last), vec![0; 63], vec![0; 65]] {
        for sheet in [path(), largest_sheet()] {
            let manned = Manned { k: 32, sheet, vans: vans.clone(), classes: None };
            let tried = |question: Question| question.trial(1, &mut vec![0; BUFFER]);
            assert_eq!(manned.in_thread(32, tried), Reply::Refused(55));
            let asked = |question: Question| question.best(&mut vec![0; BUFFER]);
            assert_eq!(manned.in_thread(32, asked), Reply::Refused(55));
            let search = |question: Question| question.within(2, &mut vec![0; BUFFER]);
            assert_eq!(manned.in_thread(32, search), Within::Refused(55));
            assert_eq!(manned.in_thread(32, |question| question.check(&[])), Err(55));
            let walked = |question: Question| question.walk(&[], 0, &mut vec![0; WALK_BUFFER]);
            assert_eq!(manned.in_thread(40, walked), Err(55));
        }
    }
}
