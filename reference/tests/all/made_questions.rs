//! The made questions to programs `rounds`: what every round meets, and what three thousand of them meet.

use reference::bytes::two;
use reference::forest::{components, thin, unrooted};
use reference::graph::{read, Graph};
use reference::made_questions::inputs;
use reference::rounds::{question, rounds};

/// The first word or two of an answer.
fn opening(text: &str) -> String {
    let words: Vec<&str> = text.split_whitespace().collect();
    match words[0] {
        "cover" | "no" => words[0].to_string(),
        "refused" => words[..2].join(" "),
        _ => words[..3].join(" "),
    }
}

#[test]
fn every_round_meets_every_answer() {
    for round in 0..3 {
        let all = inputs(round);
        assert!(all != inputs(round + 1) && all == inputs(round));
        let mut due = vec!["cover", "no", "too low stop", "too low parts", "too low needs"];
        let numbers: Vec<String> =
            [11, 12, 14, 15, 16, 21, 22, 41].map(|number| format!("refused {number}")).into();
        due.extend(numbers.iter().map(String::as_str));
        let met: Vec<(usize, String)> = all
            .iter()
            .map(|input| (input.first().copied().unwrap_or(0).into(), opening(&rounds(input))))
            .collect();
        for word in due {
            assert!(met.iter().any(|(_, opening)| opening == word), "round {round}: no {word}");
        }
        for question in 1..=4 {
            let covers = met.iter().filter(|row| row.0 == question && row.1 == "cover").count();
            assert!(covers > 5, "round {round}, question {question}: {covers} covers");
        }
        let full = all.iter().filter(|input| input.len() == 16_396).count();
        assert!(full > 8, "round {round}: {full} of full size");
    }
}

/// The inputs of so many rounds as make three thousand questions, and the graphs of those that are answered.
fn three_thousand() -> (Vec<Vec<u8>>, Vec<Graph>) {
    let mut all = Vec::new();
    (0..).map_while(|round| (all.len() < 3_000).then(|| all.extend(inputs(round)))).count();
    let graph = |input: &Vec<u8>| read(question(input).ok()?.sheet).ok();
    let graphs = all.iter().filter_map(graph).collect();
    (all, graphs)
}

/// Whether a graph is a path: connected, no vertex with more than two neighbours, and no loop.
fn is_path(graph: &Graph) -> bool {
    let degree = degrees(graph);
    is_tree(graph) && degree.iter().all(|&count| count <= 2)
}

fn is_tree(graph: &Graph) -> bool {
    graph.edges.len() + 1 == graph.n && components(&unrooted(graph, u64::MAX)).len() == 1
}

/// How many edges each vertex has.
fn degrees(graph: &Graph) -> Vec<usize> {
    let mut degree = vec![0; graph.n];
    for edge in &graph.edges {
        degree[edge.a] += 1;
        degree[edge.b] += 1;
    }
    degree
}

/// Whether some two edges have the same ends.
fn has_twins(graph: &Graph) -> bool {
    let mut pairs: Vec<_> = graph.edges.iter().map(|e| (e.a.min(e.b), e.a.max(e.b))).collect();
    pairs.sort_unstable();
    pairs.windows(2).any(|pair| pair[0] == pair[1])
}

#[test]
fn three_thousand_questions_meet_every_kind_of_graph() {
    let (all, graphs) = three_thousand();
    type Property = fn(&Graph) -> bool;
    let rows: [(&str, Property); 8] = [
        ("a path", |graph| graph.n > 4 && is_path(graph)),
        ("a star", |graph| {
            graph.n > 4 && is_tree(graph) && degrees(graph).contains(&(graph.n - 1))
        }),
        ("a grid", |graph| {
            let width = (1..=graph.n).find(|w| w * w >= graph.n).unwrap_or(1);
            graph.n > 6
                && graph.edges.len() + width + graph.n.div_ceil(width) == 2 * graph.n
                && !has_twins(graph)
        }),
        ("any edges", |graph| graph.n > 4 && graph.edges.len() > graph.n && !has_twins(graph)),
        ("several edges between two", has_twins),
        ("disconnected", |graph| components(&unrooted(graph, u64::MAX)).len() > 1),
        ("roots in a row, the rest behind them", |graph| {
            let alone =
                |v: usize| graph.edges.iter().all(|e| e.a.min(e.b) != v || e.a.max(e.b) == v + 1);
            graph.n > 8 && is_tree(graph) && !is_path(graph) && (0..3).all(alone)
        }),
        ("full size", |graph| (graph.n, graph.edges.len()) == (256, 2_048)),
    ];
    for (name, property) in rows {
        let count = graphs.iter().filter(|graph| property(graph)).count();
        assert!(count >= 30, "{name}: {count} of {}", graphs.len());
    }
    for number in 1..=4 {
        let asked = all.iter().filter(|input| input.len() > 1 && two(input, 0) == number).count();
        assert!(asked > 300, "question {number}: {asked}");
    }
    let malformed = all.iter().filter(|input| question(input).is_err()).count();
    assert!(malformed > 200, "{malformed} malformed");
}

/// The weightless edges.
fn weightless(graph: &Graph) -> Vec<usize> {
    (0..graph.edges.len()).filter(|&e| graph.edges[e].weight == 0).collect()
}

#[test]
fn three_thousand_questions_meet_weightless_edges() {
    let graphs = three_thousand().1;
    let rows: [(&str, fn(&Graph) -> bool); 3] = [
        ("weightless edges beside others", |graph| {
            (1..graph.edges.len()).contains(&weightless(graph).len())
        }),
        ("a loop of weightless edges", |graph| {
            let edges = weightless(graph);
            thin(graph, &edges).len() < edges.len()
        }),
        ("weightless edges at full size", |graph| {
            graph.edges.len() == 2_048 && !weightless(graph).is_empty()
        }),
    ];
    for (name, property) in rows {
        let count = graphs.iter().filter(|graph| property(graph)).count();
        assert!(count >= 10, "{name}: {count} of {}", graphs.len());
    }
}
