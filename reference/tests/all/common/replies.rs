//! Every reply that the rules allow to a rooted trial, by trying all choices; for small graphs.

use reference::cover::{encode, heaviest, Tree};
use reference::forest::{lowest_unjoined, rooted, thin};
use reference::graph::Graph;
use reference::question::Answer;
use reference::split::split;
use reference::vans::Crews;

/// An answer with the bytes written.
pub type Written = (Answer, Vec<u8>);

/// A simple path: its weight, its last vertex and its edges.
pub type Path = (u64, usize, Vec<usize>);

/// Every simple path from a vertex, the empty one too.
pub fn all_paths(graph: &Graph, from: usize) -> Vec<Path> {
    let mut paths: Vec<(Path, Vec<usize>)> = vec![((0, from, vec![]), vec![from])];
    let mut done = 0;
    while done < paths.len() {
        let ((weight, last, edges), visited) = paths[done].clone();
        for (e, edge) in graph.edges.iter().enumerate() {
            for (here, next) in [(edge.a, edge.b), (edge.b, edge.a)] {
                if here == last && !visited.contains(&next) {
                    let path = (weight + edge.weight, next, [&edges[..], &[e]].concat());
                    paths.push((path, [&visited[..], &[next]].concat()));
                }
            }
        }
        done += 1;
    }
    paths.into_iter().map(|(path, _)| path).collect()
}

/// The lightest paths from a root to any vertex of a part.
fn shortest(graph: &Graph, paths: &[Path], part: &Tree) -> Vec<Path> {
    let ends = graph.ends(&part.edges);
    let arriving: Vec<&Path> = paths.iter().filter(|path| ends.contains(&path.1)).collect();
    let least = arriving.iter().map(|path| path.0).min();
    arriving.into_iter().filter(|path| Some(path.0) == least).cloned().collect()
}

/// The parts of a rooted trial, and for each van its vertex and what is left to it.
struct Found {
    parts: Vec<Tree>,
    left: Vec<Tree>,
}

/// What is left at each vertex with vans goes to the van with the lowest number there.
fn found(graph: &Graph, kept: &[usize], vans: &[usize], limit: u64) -> Found {
    let stops: Vec<usize> = (0..graph.n).filter(|stop| vans.contains(stop)).collect();
    let at_stops = split(graph, kept, &stops, limit);
    let mut left: Vec<Tree> = vans.iter().map(|&van| Tree::new(van, vec![])).collect();
    for tree in at_stops.left {
        let lowest = vans.iter().position(|&van| van == tree.start).expect("a van");
        left[lowest] = tree;
    }
    Found { parts: at_stops.parts, left }
}

/// Every reply to a rooted trial that the rules allow.
pub fn all_replies(graph: &Graph, crews: impl Crews, limit: u64) -> Vec<Written> {
    let vans = crews.roots();
    let forest = rooted(graph, &vans, limit);
    if let Some(vertex) = lowest_unjoined(&forest, &vans) {
        return vec![(Answer::Stop(vertex), vec![])];
    }
    let k = vans.len();
    let roots: Vec<usize> = (0..k).collect();
    let found = found(graph, &forest.kept, &vans, limit);
    let paths: Vec<Vec<Path>> = vans.iter().map(|&van| all_paths(graph, van)).collect();
    let way = |part: &Tree, root: usize| {
        let mut ways = shortest(graph, &paths[root], part);
        ways.retain(|path| path.0 <= limit);
        ways
    };
    let ways: Vec<Vec<Vec<Path>>> =
        found.parts.iter().map(|part| roots.iter().map(|&r| way(part, r)).collect()).collect();
    let covers = all_covers(graph, k, limit, &found, &ways);
    if covers.is_empty() {
        return all_deficient(&found.parts, &ways);
    }
    covers
}

/// The covers of all assignments and all shortest paths.
fn all_covers(
    graph: &Graph,
    k: usize,
    limit: u64,
    found: &Found,
    ways: &[Vec<Vec<Path>>],
) -> Vec<Written> {
    let p = found.parts.len();
    let mut written = Vec::new();
    for code in 0..k.pow(p as u32) {
        let root_of: Vec<usize> = (0..p).map(|i| code / k.pow(i as u32) % k).collect();
        let twice = (0..p).any(|i| (0..i).any(|j| root_of[i] == root_of[j]));
        if twice || (0..p).any(|i| ways[i][root_of[i]].is_empty()) {
            continue;
        }
        for trees in all_tree_choices(graph, k, found, ways, &root_of) {
            let answer = Answer::Cover { limit, heaviest: heaviest(graph, &trees) };
            written.push((answer, encode(&trees)));
        }
    }
    written
}

/// The trees of one assignment with every choice of shortest paths.
fn all_tree_choices(
    graph: &Graph,
    k: usize,
    found: &Found,
    ways: &[Vec<Vec<Path>>],
    root_of: &[usize],
) -> Vec<Vec<Tree>> {
    let roots: Vec<usize> = (0..k).collect();
    let options = |&root: &usize| {
        let Tree { start, edges: left } = &found.left[root];
        let Some(i) = root_of.iter().position(|&r| r == root) else {
            return vec![Tree::new(*start, thin(graph, left))];
        };
        let union = |path: &Path| [left, &found.parts[i].edges, &path.2].map(|e| &e[..]).concat();
        let tree = |path: &Path| thinned(graph, *start, union(path));
        let mut trees: Vec<Tree> = ways[i][root].iter().map(tree).collect();
        trees.sort();
        trees.dedup();
        trees
    };
    let mut choices: Vec<Vec<Tree>> = vec![vec![]];
    for options in roots.iter().map(options) {
        let with = |tree: &Tree| {
            let add = |trees: &Vec<Tree>| [&trees[..], std::slice::from_ref(tree)].concat();
            choices.iter().map(add).collect::<Vec<_>>()
        };
        choices = options.iter().flat_map(with).collect();
    }
    choices
}

/// The thinned tree of a union in which edges may be named twice.
fn thinned(graph: &Graph, root: usize, mut edges: Vec<usize>) -> Tree {
    edges.sort_unstable();
    edges.dedup();
    Tree::new(root, thin(graph, &edges))
}

/// Every set of parts that has fewer roots near it than parts.
fn all_deficient(parts: &[Tree], ways: &[Vec<Vec<Path>>]) -> Vec<Written> {
    let mut written = Vec::new();
    for set in 1usize..1 << parts.len() {
        let members: Vec<usize> = (0..parts.len()).filter(|i| set >> i & 1 == 1).collect();
        let near = |root: &usize| members.iter().any(|&i| !ways[i][*root].is_empty());
        let roots = (0..ways[0].len()).filter(near).count();
        if roots < members.len() {
            let mut trees: Vec<Tree> = members.iter().map(|&i| parts[i].clone()).collect();
            trees.sort_by_key(|tree| tree.edges.iter().min().copied());
            written.push((Answer::Parts { parts: trees.len(), roots }, encode(&trees)));
        }
    }
    written
}
