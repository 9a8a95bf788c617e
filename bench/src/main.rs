//! Measures the linked planner beside the plain Rust version and prints a table. The word behind the program's name is
//! the number of rounds (101).

use bench::made::{gated, sheet, spread, surfaced, together, Shape, Size, SHAPES, SIZES};
use bench::measure::{medians, Asked, Measured};
use bench::planners::{linked, planners, Planner};
use bench::question::{Question, ROOTED, UNROOTED};

/// What a row asks, and of which kind.
type Row = (&'static str, Asked, u32);

/// The name of a row, and its time over that of the plain Rust version.
type Ratio = (&'static str, f64);

const QUESTIONS: [Row; 8] = [
    ("rooted best", Asked::Best, ROOTED),
    ("unrooted best", Asked::Best, UNROOTED),
    ("rooted trial", Asked::Trial, ROOTED),
    ("unrooted trial", Asked::Trial, UNROOTED),
    ("rooted check", Asked::Check, ROOTED),
    ("unrooted check", Asked::Check, UNROOTED),
    ("rooted walk", Asked::Walk, ROOTED),
    ("unrooted walk", Asked::Walk, UNROOTED),
];

/// The best limit in few trials.
const FEW_TRIALS: [Row; 6] = [
    ("rooted in 2", Asked::Within(2), ROOTED),
    ("unrooted in 2", Asked::Within(2), UNROOTED),
    ("rooted in 4", Asked::Within(4), ROOTED),
    ("unrooted in 4", Asked::Within(4), UNROOTED),
    ("rooted in 8", Asked::Within(8), ROOTED),
    ("unrooted in 8", Asked::Within(8), UNROOTED),
];

/// More and more edges, at fixed n and k.
const BY_EDGES: [Size; 3] = [
    Size { n: 256, m: 512, k: 32 },
    Size { n: 256, m: 1_024, k: 32 },
    Size { n: 256, m: 2_048, k: 32 },
];

/// More and more crews, at fixed n and m.
const BY_CREWS: [Size; 3] = [
    Size { n: 256, m: 2_048, k: 8 },
    Size { n: 256, m: 2_048, k: 16 },
    Size { n: 256, m: 2_048, k: 32 },
];

/// One full word of eight vertices, eight of them, all but one of 32, and all.
const BY_WORDS: [Size; 4] = [
    Size { n: 8, m: 64, k: 1 },
    Size { n: 64, m: 512, k: 8 },
    Size { n: 255, m: 2_040, k: 31 },
    Size { n: 256, m: 2_048, k: 32 },
];

/// One crew, whose tree has an edge for every vertex but one.
const WHOLE_TREE: [Size; 1] = [Size { n: 256, m: 2_048, k: 1 }];

/// A quarter of the full size, and the full size.
const QUARTER_AND_FULL: [Size; 2] = [SIZES[2], SIZES[0]];

/// The graphs of a row.
#[derive(Clone, Copy)]
enum Graphs {
    Of(Shape),
    /// Random ones for which a list of classes is made, put without it.
    Unlisted,
    /// The same, put with the list.
    Listed,
    /// Random ones with weightless edges.
    Gated,
    /// Random ones with a list of vans: at random vertices, some of them at the same.
    Spread,
    /// The same with all vans at one vertex.
    Together,
}

/// The bytes of a graph, and the lists beside them.
#[derive(Default)]
struct Bytes {
    sheet: Vec<u8>,
    classes: Option<Vec<u8>>,
    vans: Option<Vec<u8>>,
}

impl Graphs {
    fn name(self) -> &'static str {
        match self {
            Graphs::Of(shape) => shape.name(),
            Graphs::Unlisted => "no list",
            Graphs::Listed => "classes",
            Graphs::Gated => "gates",
            Graphs::Spread => "vans spread",
            Graphs::Together => "vans at one",
        }
    }

    /// What is brought at a size.
    fn made(self, size: &Size) -> Bytes {
        let random = Shape::Random;
        let plain = |sheet| Bytes { sheet, ..Bytes::default() };
        let by = |vans| Bytes { vans: Some(vans), ..plain(sheet(random, size)) };
        match self {
            Graphs::Of(shape) => plain(sheet(shape, size)),
            Graphs::Gated => plain(gated(random, size)),
            Graphs::Unlisted => plain(surfaced(random, size).0),
            Graphs::Listed => {
                let (sheet, classes) = surfaced(random, size);
                Bytes { classes: Some(classes), ..plain(sheet) }
            }
            Graphs::Spread => by(spread(size)),
            Graphs::Together => by(together(size)),
        }
    }
}

fn main() {
    let rounds = std::env::args().nth(1).map_or(101, |word| word.parse().expect("a number"));
    println!("Medians of {rounds} rounds in microseconds; nothing is cleared between rounds.");
    println!("growth: the time over that of the row above, whose graph has half the edges (at n 64 a quarter).");
    if linked().is_none() {
        println!("libplanner_c.a is not linked: the plain Rust version alone.");
    }
    let mut ratios = all_shapes(rounds);
    single_sizes(rounds);
    ratios.extend(with_classes(rounds));
    ratios.extend(with_gates(rounds));
    ratios.extend(with_vans(rounds));
    ratios.extend(few_trials(rounds));
    println!();
    for (name, _, _) in QUESTIONS.into_iter().chain(FEW_TRIALS) {
        let ratios = ratios.iter().filter(|ratio| ratio.0 == name).map(|ratio| ratio.1);
        if let Some(worst) = ratios.reduce(f64::max) {
            println!("{name:15} planner_c : Rust at full size at most {worst:.2}");
        }
    }
}

/// Every question on every shape at every size; the ratios at full size.
fn all_shapes(rounds: usize) -> Vec<Ratio> {
    let sizes: Vec<Size> = SIZES.iter().rev().copied().collect();
    let mut ratios = Vec::new();
    for row in QUESTIONS {
        heading("");
        let on = |shape| rows(row, Graphs::Of(shape), &sizes, rounds);
        ratios.extend(SHAPES.into_iter().filter_map(on));
    }
    ratios
}

/// Questions at sizes of their own.
fn single_sizes(rounds: usize) {
    heading("At fixed n, growth as m doubles, then as k doubles: the best limit on random graphs.");
    for row in about(Asked::Best) {
        rows(row, Graphs::Of(Shape::Random), &BY_EDGES, rounds);
        rows(row, Graphs::Of(Shape::Random), &BY_CREWS, rounds);
    }
    heading("The walk along one tree of 255 edges.");
    for row in about(Asked::Walk) {
        for shape in SHAPES {
            rows(row, Graphs::Of(shape), &WHOLE_TREE, rounds);
        }
    }
    heading("The check, which looks at the vertices eight at a time.");
    for row in about(Asked::Check) {
        rows(row, Graphs::Of(Shape::Random), &BY_WORDS, rounds);
    }
}

/// Every question on the same graphs without classes and with them; the ratios at full size.
fn with_classes(rounds: usize) -> Vec<Ratio> {
    heading("Random graphs, weights up to 500,000, without and with a list of classes; growth: from a quarter of the edges.");
    let of = |row| [Graphs::Unlisted, Graphs::Listed].map(|graphs| (row, graphs));
    let put = |(row, graphs)| rows(row, graphs, &QUARTER_AND_FULL, rounds);
    QUESTIONS.into_iter().flat_map(of).filter_map(put).collect()
}

/// Every question on graphs with weightless edges; the ratios at full size.
fn with_gates(rounds: usize) -> Vec<Ratio> {
    heading("Random graphs, one edge of sixteen weightless; growth: from a quarter of the edges.");
    let put = |row| rows(row, Graphs::Gated, &QUARTER_AND_FULL, rounds);
    QUESTIONS.into_iter().filter_map(put).collect()
}

/// Every rooted question with a list of vans; the ratios at full size.
fn with_vans(rounds: usize) -> Vec<Ratio> {
    heading("Random graphs with a list of vans, spread (every fourth where another is) and all at one vertex; growth: from a quarter of the edges.");
    let of = |row| [Graphs::Spread, Graphs::Together].map(|graphs| (row, graphs));
    let put = |(row, graphs)| rows(row, graphs, &QUARTER_AND_FULL, rounds);
    QUESTIONS.into_iter().filter(|row| row.2 == ROOTED).flat_map(of).filter_map(put).collect()
}

/// The best limit in few trials; the ratios at full size.
fn few_trials(rounds: usize) -> Vec<Ratio> {
    heading("Few trials: the best limit in 2, 4 and 8 trials, on random graphs; growth: from a quarter of the edges.");
    let put = |row| rows(row, Graphs::Of(Shape::Random), &QUARTER_AND_FULL, rounds);
    FEW_TRIALS.into_iter().filter_map(put).collect()
}

/// The rows that ask this, of both kinds.
fn about(asked: Asked) -> impl Iterator<Item = Row> {
    QUESTIONS.into_iter().filter(move |row| row.1 == asked)
}

/// Prints a row for each size, and gives the ratio of the last.
fn rows((name, asked, kind): Row, graphs: Graphs, sizes: &[Size], rounds: usize) -> Option<Ratio> {
    let mut before = Vec::new();
    for size in sizes {
        let Bytes { sheet, classes, vans } = &graphs.made(size);
        let (classes, vans) = (classes.as_deref(), vans.as_deref());
        let question = Measured::new(asked, Question { kind, k: size.k, sheet, classes, vans });
        // The library of an earlier state comes last, and may not take the question.
        let planners: Vec<Planner> =
            planners().into_iter().filter(|planner| question.is_for(planner)).collect();
        planners.iter().for_each(|planner| question.assert_right(planner));
        let now = medians(&question, &planners, rounds);
        print!("{name:15} {:11} {:4} {:5} {:3}", graphs.name(), size.n, size.m, size.k);
        row(&now, &before);
        before = now;
    }
    Some((name, before.first()? / before.get(1)?))
}

fn heading(title: &str) {
    println!();
    if !title.is_empty() {
        println!("{title}");
    }
    print!("{:15} {:11} {:>4} {:>5} {:>3}", "question", "graph", "n", "m", "k");
    let names: Vec<_> = planners().iter().map(Planner::name).collect();
    names.iter().for_each(|name| print!(" {name:>10}"));
    names[1..].iter().for_each(|name| print!(" {:>8}", format!(": {name}")));
    names.iter().for_each(|name| print!(" {:>17}", format!("growth {name}")));
    println!();
}

/// Prints the medians of one question, the first over each of the others, and how they grew from those of the row above.
fn row(now: &[f64], before: &[f64]) {
    let columns = 0..planners().len();
    columns.clone().for_each(|i| cell(10, 2, now.get(i).copied()));
    columns.clone().skip(1).for_each(|i| cell(8, 2, now.get(i).map(|time| now[0] / time)));
    columns.for_each(|i| cell(17, 1, now.get(i).zip(before.get(i)).map(|(now, then)| now / then)));
    println!();
}

/// Prints a number, or that there is none.
fn cell(width: usize, places: usize, number: Option<f64>) {
    match number {
        Some(number) => print!(" {number:width$.places$}"),
        None => print!(" {:>width$}", "-"),
    }
}
