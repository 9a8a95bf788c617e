//! The made trials: how much they meet, and that they would show a tempting mistake.

use std::collections::{BTreeMap, HashSet};
use std::sync::OnceLock;

use crate::common::{buffer, is_too_low, BOTH};
use reference::assignment::{assign, Assigned};
use reference::brought::Brought;
use reference::distance::{closest, from_roots};
use reference::forest::{rooted, unrooted};
use reference::graph::read;
use reference::made_trials::{trials, Trial};
use reference::question::{Answer, Kind};
use reference::rooted::plan;
use reference::split::split;
use reference::trial::{admit, run, trial, Outcome};
use reference::unrooted::needs;

/// The made trials, made once.
fn made() -> &'static [Trial] {
    static ONCE: OnceLock<Vec<Trial>> = OnceLock::new();
    ONCE.get_or_init(trials)
}

/// The answer to each made trial.
fn answers() -> &'static [Answer] {
    static ONCE: OnceLock<Vec<Answer>> = OnceLock::new();
    let answer = |asked: &Trial| {
        let Trial { kind, k, limit, ref sheet } = *asked;
        trial(kind, sheet, k as u64, limit, &mut buffer())
    };
    ONCE.get_or_init(|| made().iter().map(answer).collect())
}

#[test]
fn every_kind_of_answer_is_met() {
    let mut met: BTreeMap<String, usize> = BTreeMap::new();
    for (asked, answer) in made().iter().zip(answers()) {
        let opening = match answer {
            Answer::Cover { .. } => format!("cover {:?}", asked.kind),
            Answer::Stop(_) => "too low stop".to_string(),
            Answer::Parts { .. } => "too low parts".to_string(),
            Answer::Needs(_) => "too low needs".to_string(),
            Answer::Refused(number) => format!("refused {number}"),
            Answer::NoCover => panic!("no cover of a trial"),
        };
        *met.entry(opening).or_default() += 1;
    }
    let mut due = vec![("cover Rooted", 500), ("cover Unrooted", 400), ("too low stop", 300)];
    due.extend([("too low parts", 250), ("too low needs", 400), ("refused 11", 8)]);
    due.extend([("refused 12", 4), ("refused 13", 2), ("refused 14", 8), ("refused 15", 4)]);
    due.extend([("refused 16", 8), ("refused 21", 20), ("refused 22", 8)]);
    assert_eq!(met.len(), due.len(), "{met:?}");
    for (word, least) in due {
        assert!(met.get(word).copied().unwrap_or(0) >= least, "{word} of {met:?}");
    }
}

#[test]
fn graphs_of_every_size_are_met() {
    let sheets: HashSet<&[u8]> = made().iter().map(|asked| &asked.sheet[..]).collect();
    assert!(sheets.len() >= 200, "{} sheets", sheets.len());
    for kind in BOTH {
        // Vertices, edges, k and the least number of trials.
        for (n, m, k, least) in
            [(1, 0, 1, 3), (256, 255, 32, 20), (256, 255, 7, 20), (256, 2_048, 32, 20)]
        {
            let of_size = |asked: &Trial| {
                let fits = asked.kind == kind && asked.k == k;
                fits && read(&asked.sheet).is_ok_and(|g| g.n == n && g.edges.len() == m)
            };
            let here: Vec<usize> = (0..made().len()).filter(|&i| of_size(&made()[i])).collect();
            assert!(here.len() >= least, "{kind:?} n {n} m {m} k {k}: {}", here.len());
            let covers = here.iter().filter(|&&i| accepted(&answers()[i]) == Some(true)).count();
            assert!(covers >= here.len() / 3, "{covers} covers of {}", here.len());
        }
    }
}

/// Whether a limit is accepted, or too low; nothing where the trial is refused.
fn accepted(answer: &Answer) -> Option<bool> {
    match answer {
        Answer::Cover { .. } => Some(true),
        _ => is_too_low(answer).then_some(false),
    }
}

#[test]
fn accepted_does_not_persist_for_larger_limits() {
    for kind in BOTH {
        let falls_back = |i: &usize| {
            let (one, next) = (&made()[*i], &made()[i + 1]);
            let on_one = one.kind == kind && next.kind == kind && one.k == next.k;
            let said = (accepted(&answers()[*i]), accepted(&answers()[i + 1]));
            on_one
                && one.sheet == next.sheet
                && one.limit < next.limit
                && said == (Some(true), Some(false))
        };
        let count = (0..made().len() - 1).filter(falls_back).count();
        assert!(count >= 3, "{kind:?}: {count}");
    }
}

/// Whether a tempting wrong planner accepts an admitted trial.
type Wrong = fn(&Trial) -> bool;

/// The distance is measured to the vertex where a part was split off.
fn to_the_top(asked: &Trial) -> bool {
    let graph = read(&asked.sheet).expect("admitted");
    let k = asked.k;
    if asked.kind == Kind::Unrooted {
        return is_accepted(asked);
    }
    let Ok(plan) = plan(&graph, k, asked.limit) else { return false };
    let distance = from_roots(&graph, k);
    let near = |start: usize, root: usize| distance[root][start].is_some_and(|d| d <= asked.limit);
    let row = |start: usize| (0..k).map(move |root| (start, root));
    let cells = plan.parts.iter().flat_map(|part| row(part.start));
    let allowed: Vec<u8> = cells.map(|(start, root)| u8::from(near(start, root))).collect();
    let p = plan.parts.len();
    assign(p, k, &allowed, &mut vec![0; p]) == Assigned::Roots
}

/// A part of exactly the threshold is left over.
fn left_at_the_threshold(asked: &Trial) -> bool {
    let graph = read(&asked.sheet).expect("admitted");
    let (k, limit) = (asked.k, asked.limit);
    if asked.kind == Kind::Unrooted || plan(&graph, k, limit).is_err() {
        return is_accepted(asked);
    }
    let roots: Vec<usize> = (0..k).collect();
    let found = split(&graph, &rooted(&graph, k, limit).kept, &roots, limit + 1);
    let distance = from_roots(&graph, k);
    let mut allowed = Vec::new();
    for part in &found.parts {
        let ends = graph.ends(&part.edges);
        for from_root in &distance {
            allowed.push(u8::from(closest(from_root, &ends).is_some_and(|near| near.0 <= limit)));
        }
    }
    let p = found.parts.len();
    assign(p, k, &allowed, &mut vec![0; p]) == Assigned::Roots
}

/// Edges as heavy as the limit are dropped.
fn drops_the_limit(asked: &Trial) -> bool {
    let graph = read(&asked.sheet).expect("admitted");
    let light = asked.limit.saturating_sub(1);
    match asked.kind {
        Kind::Rooted => is_accepted(asked) && plan(&graph, asked.k, light).is_ok(),
        Kind::Unrooted => needs(&graph, &unrooted(&graph, light), asked.limit) <= asked.k as u64,
    }
}

/// The weight of all components is divided at once, not that of each.
fn divides_at_once(asked: &Trial) -> bool {
    let graph = read(&asked.sheet).expect("admitted");
    if asked.kind == Kind::Rooted || asked.limit == 0 {
        return is_accepted(asked);
    }
    let kept = unrooted(&graph, asked.limit).kept;
    let components = (graph.n - kept.len()) as u64;
    components + graph.weight(&kept) / (2 * asked.limit) <= asked.k as u64
}

/// Whether this package accepts a trial.
fn is_accepted(asked: &Trial) -> bool {
    let graph = read(&asked.sheet).expect("admitted");
    matches!(run(asked.kind, &graph, asked.k, asked.limit), Outcome::Cover(_))
}

#[test]
fn tempting_mistakes_would_show() {
    let rows: [(&str, Wrong); 4] = [
        ("distance to the top", to_the_top),
        ("exactly the threshold left over", left_at_the_threshold),
        ("edges of the limit dropped", drops_the_limit),
        ("components divided at once", divides_at_once),
    ];
    for (name, wrong) in rows {
        let admitted = |asked: &Trial| {
            let brought = Brought::plain(&asked.sheet);
            admit(asked.kind, brought, asked.k as u64, asked.limit, usize::MAX).is_ok()
        };
        let shows = |i: &usize| {
            let asked = &made()[*i];
            asked.sheet.len() < 1_000
                && admitted(asked)
                && Some(wrong(asked)) != accepted(&answers()[*i])
        };
        let count = (0..made().len()).filter(shows).count();
        assert!(count >= 5, "{name}: {count}");
    }
}
