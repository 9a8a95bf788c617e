//! Rooted questions with a list of vans (document 02, A.5), put to every function of the linked library: replies held to
//! `reference/`, which shares no code with it, and to what is worked out here. What is refused is in `vans/refused.rs`.

mod common;
#[path = "vans/refused.rs"]
mod refused;
#[path = "common/sheets.rs"]
mod sheets;

use common::call::{call, Asked, Got, Question, Through};
use common::judged::{answered, judged};
use planner::{Cover, Kind, Reply, Tree as Filed, Walk, BUFFER, WALK_BUFFER};
use reference::bytes::two;
use reference::cover::{encode, filed_length, Tree};
use reference::graph::sheet;
use reference::made_records::full_size;
use reference::made_shapes::{Shape, Weights};
use reference::made_surfaces::right_list;
use reference::made_vans::listed_vans;
use reference::optimum::optimum;
use reference::question::Kind as Crews;
use reference::random::Random;
use reference::rivals::least_longest;
use reference::vans::bytes;
use sheets::{all_of, written};

/// A rooted question with vans and no classes.
fn manned<'a>(asked: Asked<'a>, k: usize, sheet: &'a [u8], vans: &'a [u8]) -> Question<'a> {
    Question { asked, kind: 0, k, sheet, classes: None, vans: Some(vans) }
}

/// Where a trial or a best limit is answered with a cover, the check says yes to it and each of its trees has a walk; the
/// longest is twice as long as the heaviest tree. Gives the case.
fn followed(random: &mut Random, question: &Question) -> u32 {
    let got = answered(random, question);
    if got.case != 0 {
        return got.case;
    }
    let (cover, heaviest) = (written(&got), got.values.1[1]);
    let checked = answered(random, &Question { asked: Asked::Check { cover }, ..*question });
    assert_eq!((checked.case, checked.values.1[0]), (0, heaviest), "{question:?}");
    let mut longest = 0;
    for tree in 0..two(cover, 0) {
        let asked = Asked::Walk { cover, tree, room: WALK_BUFFER };
        let walked = answered(random, &Question { asked, ..*question });
        assert_eq!(walked.case, 0, "{question:?} tree {tree}");
        longest = longest.max(walked.values.1[1]);
    }
    assert_eq!(longest, 2 * heaviest, "{question:?}");
    0
}

/// Trials, best limits and checks, and walks of what is filed: right lists and wrong ones.
#[test]
fn every_record_with_vans_is_answered_as_the_reference_allows() {
    let mut random = Random::new(50);
    let mut met = [[0; 64]; 3];
    for record in listed_vans() {
        let question = Question::of(&record);
        let Asked::Check { cover } = question.asked else {
            met[0][followed(&mut random, &question) as usize] += 1;
            continue;
        };
        met[1][judged(&mut random, &question) as usize] += 1;
        let t = filed_length(cover).map_or(0, |_| two(cover, 0)).min(33);
        let short = [(0, WALK_BUFFER - 1), (t, 0)];
        for (tree, room) in (0..=t).map(|tree| (tree, WALK_BUFFER)).chain(short) {
            let asked = Asked::Walk { cover, tree, room };
            met[2][judged(&mut random, &Question { asked, ..question }) as usize] += 1;
        }
    }
    let of_all = [0, 11, 12, 14, 15, 16, 53, 54, 21, 55];
    let others =
        [&[1, 2, 3, 4, 13, 22, 23][..], &[31, 32, 33, 34, 35], &[31, 32, 33, 34, 35, 51, 52]];
    for (met, others) in met.iter().zip(others) {
        let missed: Vec<_> = of_all.iter().chain(others).filter(|&&case| met[case] == 0).collect();
        assert!(missed.is_empty(), "{missed:?} are not met, {met:?}");
    }
}

/// So many vans at made vertices: all at one, at two, or at any.
fn made_vans(random: &mut Random, n: usize, k: usize) -> Vec<usize> {
    let from: Vec<usize> = match random.below(3) {
        0 => vec![random.below(n)],
        1 => vec![random.below(n), random.below(n)],
        _ => (0..n).collect(),
    };
    (0..k).map(|_| from[random.below(from.len())]).collect()
}

/// Small sheets, some edges of which are weightless, with up to 32 vans, every third time with classes too.
#[test]
fn made_sheets_with_made_lists() {
    let mut random = Random::new(51);
    let mut met = [0; 5];
    for turn in 0..800 {
        let (n, m) = (random.between(1, 9), random.between(0, 16));
        let graph = random.any_graph(n, m, if turn % 2 == 0 { 3 } else { 20 });
        let k = if turn % 9 == 0 { random.between(1, 32) } else { random.between(1, 6) };
        let vans = bytes(&made_vans(&mut random, n, k));
        let list = right_list(&mut random, &graph);
        let (sheet, classes) = (graph.to_sheet(), (turn % 3 == 0).then_some(&list[..]));
        let best = manned(Asked::Best { room: BUFFER }, k, &sheet, &vans);
        let best = Question { classes, ..best };
        met[followed(&mut random, &best) as usize] += 1;
        let got = answered(&mut random, &best);
        let limit = if got.case == 0 { got.values.1[0] } else { graph.total() };
        let any = random.below(graph.total() as usize + 2) as u64;
        for limit in [0, any, limit / 2, limit.saturating_sub(1), limit, limit + 1] {
            let asked = Asked::Trial { limit, room: BUFFER };
            met[followed(&mut random, &Question { asked, ..best }) as usize] += 1;
        }
    }
    assert!([0, 1, 2, 4].iter().all(|&case| met[case] > 50), "{met:?}");
}

/// The best limit's heaviest tree weighs at most four times that of any cover from the same vans, its longest walk is at most
/// eight times the longest of any closed walks from the same vans; none is answered exactly where there are none.
#[test]
fn the_bounds_against_anybody_with_the_same_vans() {
    let mut random = Random::new(52);
    let mut met = [0; 2];
    for _ in 0..400 {
        let (n, m, k) = (random.between(1, 5), random.between(0, 7), random.between(1, 4));
        let graph = random.any_graph(n, m, 9);
        let vans = made_vans(&mut random, n, k);
        let (sheet, list) = (graph.to_sheet(), bytes(&vans));
        let question = manned(Asked::Best { room: BUFFER }, k, &sheet, &list);
        let got = answered(&mut random, &question);
        let ours = (got.case == 0).then_some(got.values.1[1]);
        let least = optimum(Crews::Rooted, &graph, &vans);
        let walks = least_longest(Crews::Rooted, &graph, &vans);
        assert_eq!((ours.is_some(), ours.is_some()), (least.is_some(), walks.is_some()));
        if let (Some(ours), Some(least), Some(walks)) = (ours, least, walks) {
            assert!(least <= ours && ours <= 4 * least, "{question:?}");
            assert!(walks <= 2 * ours && 2 * ours <= 8 * walks, "{question:?}");
        }
        met[usize::from(ours.is_some())] += 1;
    }
    assert!(met.iter().all(|&count| count > 50), "{met:?}");
}

/// What is left at a vertex goes to the first of its vans, and D counts vans: three edges of weight 5 around vertex 0 are three
/// parts at limit 5, of which two vans are near all.
#[test]
fn two_vans_at_one_vertex() {
    let edge = sheet(2, &[(0, 1, 1)]);
    let mut buffer = [255; BUFFER];
    for (vans, trees) in [([0; 2], [&[0][..], &[]]), ([1; 2], [&[0], &[]])] {
        let list = bytes(&vans);
        let question = planner::Question {
            vans: Some(&list),
            ..planner::Question::new(Kind::Rooted, 2, &edge)
        };
        let due = Reply::Cover { limit: 5, heaviest: 1, trees: 2 };
        assert_eq!(question.trial(5, &mut buffer), due);
        let tree = |edges: &[usize]| Filed { start: vans[0], edges: edges.to_vec() };
        assert_eq!(Cover::read(&buffer), Some(Cover { trees: trees.map(tree).to_vec() }));
    }
    let star = sheet(4, &[(0, 1, 5), (0, 2, 5), (0, 3, 5)]);
    let two = bytes(&[0; 2]);
    let question =
        planner::Question { vans: Some(&two), ..planner::Question::new(Kind::Rooted, 2, &star) };
    assert_eq!(question.trial(5, &mut buffer), Reply::TooLowParts { parts: 3, roots: 2 });
    let parts = (0..3).map(|edge| Filed { start: 0, edges: vec![edge] }).collect();
    assert_eq!(Cover::read(&buffer), Some(Cover { trees: parts }));
    let three = bytes(&[0; 3]);
    let question = planner::Question { k: 3, vans: Some(&three), ..question };
    let due = Reply::Cover { limit: 5, heaviest: 5, trees: 3 };
    assert_eq!((question.trial(5, &mut buffer), question.best(&mut buffer)), (due, due));
}

/// 32 vans at one vertex, at two by turns and at 32: on a sheet of 256 vertices and 2,048 edges, and on one of 1 vertex.
#[test]
fn thirty_two_vans_on_the_largest_sheet_and_on_the_smallest() {
    let mut random = Random::new(53);
    let lists = [vec![0; 32], vec![255; 32], (0..32).map(|j| 255 * (j % 2)).collect()];
    let spread = (0..32).map(|j| 255 - 8 * j).collect();
    for (weights, vans) in [Weights::Between(1, 9), Weights::Either(0, 1_000_000)]
        .into_iter()
        .flat_map(|weights| lists.iter().chain([&spread]).map(move |vans| (weights, vans)))
    {
        let sheet = full_size(&mut random, Shape::Grid, weights).to_sheet();
        let vans = bytes(vans);
        let best = manned(Asked::Best { room: BUFFER }, 32, &sheet, &vans);
        assert_eq!(followed(&mut random, &best), 0);
        let limit = answered(&mut random, &best).values.1[0];
        for (limit, accepted) in [(limit, true), (limit - 1, false), (2_048_000_000, true)] {
            let question = Question { asked: Asked::Trial { limit, room: BUFFER }, ..best };
            assert_eq!(followed(&mut random, &question) == 0, accepted, "limit {limit}");
        }
    }
    let (one, vans) = (sheet(1, &[]), bytes(&[0; 32]));
    for limit in [0, 1, 2_048_000_000] {
        for asked in [Asked::Trial { limit, room: BUFFER }, Asked::Best { room: BUFFER }] {
            let question = manned(asked, 32, &one, &vans);
            assert_eq!(followed(&mut random, &question), 0);
            let got = answered(&mut random, &question);
            assert_eq!(written(&got), encode(&vec![Tree::new(0, vec![]); 32]));
        }
    }
}

/// What comes of a question with its list, which must be what comes of it without.
fn same_as_plain(seed: u64, question: &Question) -> Got {
    let got = call(seed, question, question.general());
    assert!(got == call(seed, question, Through::Plain), "{question:?}");
    got
}

/// The list 0 to k - 1 gives what no list gives, byte for byte, for both kinds; for the unrooted kind any list does.
#[test]
fn the_list_in_order_is_as_none() {
    let mut random = Random::new(54);
    for turn in 0..300 {
        let n = random.between(1, 40);
        let (m, k) = (random.between(0, 2 * n), random.between(1, n.min(32)));
        let sheet = random.any_graph(n, m, 9).to_sheet();
        let tried = Asked::Trial { limit: random.below(30) as u64, room: BUFFER };
        let in_order = bytes(&(0..k).collect::<Vec<_>>());
        let any = bytes(&made_vans(&mut random, n, k));
        for (kind, vans) in [(0, &in_order), (1, &in_order), (1, &any)] {
            let within = Asked::Within { trials: random.between(2, 33), room: BUFFER };
            for asked in [tried, Asked::Best { room: BUFFER }, within] {
                let question = Question { kind, ..manned(asked, k, &sheet, vans) };
                let got = same_as_plain(turn, &question);
                // Bytes that are no cover are refused alike.
                let length = if got.case == 0 { written(&got).len() } else { 20 };
                for &asked in &all_of(0, &got.buffer.1[..length])[3..] {
                    same_as_plain(turn, &Question { asked, ..question });
                }
            }
        }
    }
}

/// The wrapper's list: trial, best limit, check and walk from vertex 3 of sheet N, no list, one of no bytes, and any beside an
/// unrooted question.
#[test]
fn lists_of_the_wrapper() {
    let sheet = sheet(4, &[(0, 2, 3), (2, 3, 3), (1, 3, 5)]);
    let plain = planner::Question::new(Kind::Rooted, 2, &sheet);
    let question = planner::Question { vans: Some(&[3, 0, 3, 0]), ..plain };
    let cover = encode(&[Tree::new(3, vec![0, 1]), Tree::new(3, vec![2])]);
    let mut buffer = vec![0; BUFFER];
    let due = Reply::Cover { limit: 5, heaviest: 6, trees: 2 };
    assert_eq!((question.trial(5, &mut buffer), question.best(&mut buffer)), (due, due));
    assert_eq!((question.check(&cover), plain.check(&cover)), (Ok(6), Err(32)));
    let walk = question.walk(&cover, 1, &mut buffer);
    assert_eq!(walk, Ok(Walk { stops: 3, length: 10 }));
    assert_eq!(walk.unwrap().read(&buffer), Some(vec![3, 1, 3]));
    let none = planner::Question { vans: Some(&[]), ..question };
    assert_eq!((none.check(&cover), none.trial(5, &mut buffer)), (Err(55), Reply::Refused(55)));
    let both = planner::Question { classes: Some(&[10, 20, 40]), ..question };
    assert_eq!(both.check(&cover), Ok(10));
    let alone = planner::best(Kind::Unrooted, 2, &sheet, &mut buffer);
    for vans in [None, Some(&[][..]), Some(&[9; 3]), question.vans] {
        let unrooted = planner::Question { kind: Kind::Unrooted, vans, ..plain };
        assert_eq!((unrooted.check(&cover), unrooted.best(&mut buffer)), (Ok(6), alone));
    }
}
