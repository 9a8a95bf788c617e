//! Weightless edges: the sentence on limit 0 on thousands of small graphs, and small graphs worked out by hand.

use crate::common::{buffer, filing, input, question, BOTH};
use reference::best::best;
use reference::check::check;
use reference::cover::{encode, filed_length, Tree};
use reference::graph::{sheet, Graph};
use reference::judge_text::{judge, Verdict};
use reference::made_gates::{FOOTBRIDGE, LEFT};
use reference::optimum::optimum;
use reference::question::{Answer, Kind};
use reference::random::Random;
use reference::rounds::rounds;
use reference::trial::trial;
use reference::walk::walk;
use Kind::{Rooted, Unrooted};

/// The vertices that weightless edges join to one of some vertices, found breadth-first.
fn joined(graph: &Graph, from: &[usize]) -> Vec<bool> {
    let mut is_joined = vec![false; graph.n];
    let mut queue = from.to_vec();
    from.iter().for_each(|&v| is_joined[v] = true);
    let mut next = 0;
    while next < queue.len() {
        let here = queue[next];
        next += 1;
        for edge in graph.edges.iter().filter(|edge| edge.weight == 0) {
            for (one, other) in [(edge.a, edge.b), (edge.b, edge.a)] {
                if one == here && !is_joined[other] {
                    is_joined[other] = true;
                    queue.push(other);
                }
            }
        }
    }
    is_joined
}

/// The lowest vertex that weightless edges join to none of the roots 0 to k - 1.
fn lowest_apart(graph: &Graph, k: usize) -> Option<usize> {
    let roots: Vec<usize> = (0..k).collect();
    joined(graph, &roots).iter().position(|&is| !is)
}

/// How many components weightless edges leave, over all vertices.
fn components(graph: &Graph) -> usize {
    let is_lowest = |v: &usize| joined(graph, &[*v])[..*v].iter().all(|&is| !is);
    (0..graph.n).filter(is_lowest).count()
}

/// The answer due to a trial at limit 0.
fn due_at_0(kind: Kind, graph: &Graph, k: usize) -> Answer {
    let too_low = match kind {
        Rooted => lowest_apart(graph, k).map(Answer::Stop),
        Unrooted => Some(components(graph)).filter(|&c| c > k).map(|c| Answer::Needs(c as u64)),
    };
    too_low.unwrap_or(Answer::Cover { limit: 0, heaviest: 0 })
}

/// Asserts what is said of limit 0 of one question; whether it is accepted.
fn assert_at_0(kind: Kind, graph: &Graph, k: usize) -> bool {
    let (bytes, asked, of) = (graph.to_sheet(), k as u64, (kind, k, graph));
    let due = due_at_0(kind, graph, k);
    let mut lent = buffer();
    assert_eq!(trial(kind, &bytes, asked, 0, &mut lent), due, "{of:?}");
    let is_due = matches!(due, Answer::Cover { .. });
    if is_due {
        let length = filed_length(&lent).expect("four bytes");
        assert_eq!(check(kind, &bytes, asked, &lent[..length]), Ok(0), "{of:?}");
    }
    let answer = best(kind, &bytes, asked, &mut lent);
    let is_best = matches!(answer, Answer::Cover { limit: 0, .. });
    let is_least = optimum(kind, graph, k) == Some(0);
    assert_eq!((is_best, is_least), (is_due, is_due), "{answer:?} {of:?}");
    assert!(!is_due || answer == due, "{answer:?} {of:?}");
    is_due
}

/// Document 02, A.4: a limit of 0 accepts exactly when weightless lines join every stop to a yard, or into at most k
/// components. Then 0 is the best limit and our heaviest weight, and somebody's too; and only then.
#[test]
fn a_limit_of_0_is_accepted_exactly_when_weightless_edges_do() {
    let mut random = Random::new(41);
    let mut met = [[0; 2]; 2];
    for _ in 0..4_000 {
        let (n, m) = (random.between(1, 6), random.between(0, 8));
        let most = [1, 3, 9][random.below(3)];
        let graph = random.gated_graph(n, m, most);
        for kind in BOTH {
            for k in 1..=if kind == Rooted { n.min(3) } else { 3 } {
                let is_accepted = assert_at_0(kind, &graph, k);
                met[kind as usize][usize::from(is_accepted)] += 1;
            }
        }
    }
    assert!(met.iter().flatten().all(|&count| count > 2_000), "{met:?}");
}

/// Name, kind, k, limit (none for the best limit), the graph and the text due.
type Row = (&'static str, Kind, usize, Option<u64>, (usize, &'static [Edge]), &'static str);

/// An edge: its ends and its weight.
type Edge = (usize, usize, u64);

/// At limit 0 the footbridge leaves the components 0 1, 2 and 3.
const ROWS: &[Row] = &[
    ("two of three", Unrooted, 2, Some(0), FOOTBRIDGE, "too low needs 3\n"),
    (
        "three of three",
        Unrooted,
        3,
        Some(0),
        FOOTBRIDGE,
        "cover 0 0 3\ntree 0 0 0\ntree 2 0\ntree 3 0\n",
    ),
    (
        "no more than are needed",
        Unrooted,
        32,
        Some(0),
        FOOTBRIDGE,
        "cover 0 0 3\ntree 0 0 0\ntree 2 0\ntree 3 0\n",
    ),
    (
        "best for three",
        Unrooted,
        3,
        None,
        FOOTBRIDGE,
        "cover 0 0 3\ntree 0 0 0\ntree 2 0\ntree 3 0\n",
    ),
    ("two at 4", Unrooted, 2, Some(4), FOOTBRIDGE, "too low needs 3\n"),
    ("best for two", Unrooted, 2, None, FOOTBRIDGE, "cover 5 5 2\ntree 0 5 0 1\ntree 3 0\n"),
    ("best for one", Unrooted, 1, None, FOOTBRIDGE, "no cover\n"),
    ("from 0", Rooted, 1, Some(0), FOOTBRIDGE, "too low stop 2\n"),
    ("from 0 and 1", Rooted, 2, Some(0), FOOTBRIDGE, "too low stop 2\n"),
    ("from 0 at 5", Rooted, 1, Some(5), FOOTBRIDGE, "too low stop 3\n"),
    ("from 0 to 2", Rooted, 3, Some(0), FOOTBRIDGE, "too low stop 3\n"),
    (
        "from all, the footbridge between two of them",
        Rooted,
        4,
        Some(0),
        FOOTBRIDGE,
        "cover 0 0 4\ntree 0 0\ntree 1 0\ntree 2 0\ntree 3 0\n",
    ),
    (
        "all along weightless edges",
        Rooted,
        1,
        Some(0),
        (3, &[(2, 1, 0), (0, 1, 0)]),
        "cover 0 0 1\ntree 0 0 0 1\n",
    ),
    (
        "of two beside each other the lower one",
        Rooted,
        1,
        None,
        (2, &[(0, 1, 3), (0, 1, 0), (1, 0, 0)]),
        "cover 0 0 1\ntree 0 0 1\n",
    ),
    (
        "of a loop all but the last",
        Unrooted,
        1,
        Some(0),
        (3, &[(0, 1, 0), (1, 2, 0), (2, 0, 0)]),
        "cover 0 0 1\ntree 0 0 0 1\n",
    ),
    (
        "at 1 too nothing weightless is split off",
        Unrooted,
        1,
        Some(1),
        (3, &[(0, 1, 0), (1, 2, 0), (2, 0, 0)]),
        "cover 1 0 1\ntree 0 0 0 1\n",
    ),
    (
        "a leftover of weightless edges is a tree",
        Unrooted,
        2,
        Some(4),
        LEFT,
        "cover 4 8 2\ntree 0 0 0\ntree 1 8 1 2\n",
    ),
    (
        "a part takes what is weightless below it along",
        Rooted,
        1,
        Some(5),
        (4, &[(0, 1, 0), (1, 2, 5), (2, 3, 0)]),
        "cover 5 5 1\ntree 0 5 0 1 2\n",
    ),
];

#[test]
fn small_graphs_by_hand() {
    for &(name, kind, k, limit, (n, edges), due) in ROWS {
        let number = question(kind, limit.is_some());
        let asked = input(number, k, limit.unwrap_or(77), &sheet(n, edges));
        assert_eq!(rounds(&asked), due, "{name}");
        assert_eq!(judge(&asked, due), Verdict::Yes, "{name}");
    }
}

#[test]
fn checks_by_hand() {
    // A loop of three and an edge beside the first: the edges of one tree from 0, and the answer.
    let looped = sheet(3, &[(0, 1, 0), (1, 2, 0), (2, 0, 0), (0, 1, 0)]);
    let rows: [(&[usize], Result<u64, u16>); 8] = [
        (&[0, 1], Ok(0)),
        (&[1, 2], Ok(0)),
        (&[2, 3], Ok(0)),
        (&[0, 1, 2], Err(34)),
        (&[0, 3], Err(34)),
        (&[1], Err(34)),
        (&[0], Err(35)),
        (&[], Err(35)),
    ];
    for (edges, due) in rows {
        let entries: Vec<(usize, usize)> = edges.iter().map(|&e| (0, e)).collect();
        for kind in BOTH {
            assert_eq!(check(kind, &looped, 1, &filing(&[0], &entries)), due, "{edges:?}");
        }
    }
    let (n, edges) = FOOTBRIDGE;
    let apart = filing(&[0, 2, 3], &[(0, 0)]);
    assert_eq!(check(Unrooted, &sheet(n, edges), 3, &apart), Ok(0));
    assert_eq!(check(Unrooted, &sheet(n, edges), 2, &apart), Err(32));
}

#[test]
fn walks_by_hand() {
    let (n, edges) = LEFT;
    let cover = encode(&[Tree::new(1, vec![0, 1, 2])]);
    let mut lent = buffer();
    assert_eq!(walk(Unrooted, &sheet(n, edges), 1, &cover, 0, &mut lent), Ok((7, 16)));
    let stops = [1, 0, 1, 2, 3, 2, 1].map(|v| [v, 0]).concat();
    assert_eq!(lent[..14], stops);
    let star: Vec<Edge> = (1..256).map(|v| (0, v, 0)).collect();
    let cover = encode(&[Tree::new(0, (0..255).collect())]);
    assert_eq!(walk(Rooted, &sheet(256, &star), 1, &cover, 0, &mut lent), Ok((511, 0)));
}
