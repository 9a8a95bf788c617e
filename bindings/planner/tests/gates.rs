//! Weightless edges (document 02, A.4), put to every function of the linked library: replies held to `reference/`, which shares no
//! code with it, and limit 0 to a plain search along such edges.

mod common;

use common::call::{Asked, Question};
use common::judged::{answered, judged};
use planner::{BUFFER, WALK_BUFFER};
use reference::cover::{encode, Tree};
use reference::graph::sheet;
use reference::made_gates::gates;
use reference::random::Random;

/// The edges (end, end, weight) of a graph.
type Edges = Vec<(usize, usize, u64)>;

/// Edges of which about every second one is weightless.
fn gated(random: &mut Random, n: usize, m: usize) -> Edges {
    let mut edge = |_| {
        let a = random.below(n);
        let weight = if random.below(2) == 0 { 0 } else { random.between(1, 3) as u64 };
        (a, (a + 1 + random.below(n - 1)) % n, weight)
    };
    (0..m).map(&mut edge).collect()
}

/// For each of n vertices the lowest that weightless edges join it to.
fn lowest(n: usize, edges: &Edges) -> Vec<usize> {
    let mut lowest: Vec<usize> = (0..n).collect();
    for _ in 0..n {
        for &(a, b, _) in edges.iter().filter(|edge| edge.2 == 0) {
            let low = lowest[a].min(lowest[b]);
            (lowest[a], lowest[b]) = (low, low);
        }
    }
    lowest
}

/// Whether weightless edges join every vertex to one of 0 to k - 1 (kind 0), or all into at most k components.
fn is_joined(kind: u32, n: usize, edges: &Edges, k: usize) -> bool {
    let lowest = lowest(n, edges);
    match kind {
        0 => lowest.iter().all(|&v| v < k),
        _ => (0..n).filter(|&v| lowest[v] == v).count() <= k,
    }
}

/// Trials, best limits and checks on made graphs, and the walks of what is filed.
#[test]
fn every_record_is_answered_as_the_reference_allows() {
    let mut random = Random::new(40);
    let mut met = [0; 64];
    for record in gates() {
        let question = Question::of(&record);
        met[judged(&mut random, &question) as usize] += 1;
        let Asked::Check { cover } = question.asked else { continue };
        for tree in 0..2 {
            let asked = Asked::Walk { cover, tree, room: WALK_BUFFER };
            met[judged(&mut random, &Question { asked, ..question }) as usize] += 1;
        }
    }
    assert!([0, 1, 2, 3, 34, 51].iter().all(|&case| met[case] > 0), "{met:?}");
}

/// A trial at 0 gives a cover exactly where weightless edges join what they should; the best limit is 0 exactly there; neither
/// weighs anything then. With classes, too, which make nothing of nothing.
#[test]
fn limit_zero_is_accepted_exactly_where_weightless_edges_join() {
    let mut random = Random::new(41);
    let mut met = [[0; 2]; 2];
    for turn in 0..1_500 {
        let n = random.between(2, 9);
        let m = random.between(0, 14);
        let edges = gated(&mut random, n, m);
        let (sheet, k) = (&sheet(n, &edges), random.between(1, n.min(4)));
        let list: Vec<u8> = (0..m).map(|_| random.below(70) as u8).collect();
        let classes = (turn % 3 == 0).then_some(&list[..]);
        for kind in [0, 1] {
            let due = is_joined(kind, n, &edges, k);
            let tried = Asked::Trial { limit: 0, room: BUFFER };
            for asked in [tried, Asked::Best { room: BUFFER }] {
                let got =
                    answered(&mut random, &Question { asked, kind, k, sheet, classes, vans: None });
                let (limit, heaviest) = (got.values.1[0], got.values.1[1]);
                assert_eq!(got.case == 0 && limit == 0, due, "kind {kind} k {k} {n} {edges:?}");
                assert!(!due || heaviest == 0, "kind {kind} k {k} {n} {edges:?}");
            }
            met[kind as usize][usize::from(due)] += 1;
        }
    }
    assert!(met.iter().flatten().all(|&count| count > 200), "{met:?}");
}

/// 16 is for weights above 1,000,000 alone: at either end of the lines, for every function.
#[test]
fn no_weight_is_refused_for_being_zero() {
    let mut random = Random::new(42);
    for (m, place) in [(1, 0), (3, 1), (2_048, 0), (2_048, 2_047)] {
        let cover = &encode(&[Tree::new(0, vec![place])])[..];
        for (weight, due) in [(0, 0), (1, 0), (1_000_000, 0), (1_000_001, 16), (4_294_967_295, 16)]
        {
            let edge = |e| (0, 1, if e == place { weight } else { 0 });
            let sheet = &sheet(2, &(0..m).map(edge).collect::<Vec<_>>());
            for kind in [0, 1] {
                for asked in [
                    Asked::Trial { limit: 1_000_000, room: BUFFER },
                    Asked::Best { room: BUFFER },
                    Asked::Check { cover },
                    Asked::Walk { cover, tree: 0, room: WALK_BUFFER },
                ] {
                    let question = Question { asked, kind, k: 1, sheet, classes: None, vans: None };
                    assert_eq!(judged(&mut random, &question), due, "weight {weight} {asked:?}");
                }
            }
        }
    }
}

/// A path of 256 vertices, each step of which is eight weightless edges or nine: one crew covers it at limit 0, walks along 255
/// edges and goes no way; two edges of one step are a loop.
#[test]
fn the_largest_sheet_of_weightless_edges() {
    let mut random = Random::new(43);
    let edges: Edges = (0..2_048).map(|e| (e % 255, e % 255 + 1, 0)).collect();
    let sheet = &sheet(256, &edges);
    let along = encode(&[Tree::new(0, (0..255).collect())]);
    let looped = encode(&[Tree::new(0, (0..256).collect())]);
    for kind in [0, 1] {
        let mut put = |asked| {
            let question = Question { asked, kind, k: 1, sheet, classes: None, vans: None };
            let got = answered(&mut random, &question);
            (got.case, got.values.1, got.buffer.1)
        };
        for asked in [Asked::Trial { limit: 0, room: BUFFER }, Asked::Best { room: BUFFER }] {
            let (case, values, buffer) = put(asked);
            assert_eq!((case, &values[..]), (0, &[0, 0, 1][..]));
            assert_eq!(buffer[..along.len()], along);
        }
        let (case, values, _) = put(Asked::Check { cover: &along });
        assert_eq!((case, values[0]), (0, 0));
        let (case, values, _) = put(Asked::Walk { cover: &along, tree: 0, room: WALK_BUFFER });
        assert_eq!((case, &values[..]), (0, &[511, 0][..]));
        assert_eq!(put(Asked::Check { cover: &looped }).0, 34);
    }
}
