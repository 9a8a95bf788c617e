//! Whether some shortest path from a root holds all edges that are wanted of it.
//!
//! A path comes to no vertex twice. By edges that weigh something that goes without saying, since each leads farther from the
//! root. Edges of weight 0 join vertices that are equally far, here called a group, and within a group a walk may go round and
//! back at no cost. So first the groups are taken for single vertices, which decides all but that; then a path is looked for.
//! Where that takes too many steps, each wanted edge is looked at by itself, and if nothing is wrong the answer is yes.

use crate::forest::sides;
use crate::graph::Graph;

/// How many steps of paths are tried before the search gives up.
const MOST_STEPS: usize = 10_000;

/// The shortest paths from a root by some of the edges, and the edges wanted of one of them.
pub struct Paths<'a> {
    graph: &'a Graph,
    root: usize,
    /// The edges wanted, rising.
    wanted: &'a [usize],
    /// For each vertex but the root, the last edges of shortest paths to it, with the vertices before them.
    back: Vec<Vec<(usize, usize)>>,
    /// For each vertex, the lowest of its group.
    group: Vec<usize>,
    /// For each group, by its lowest vertex, the most wanted edges on a walk of the least weight that ends in it.
    most: Vec<Option<usize>>,
    /// The vertices that the path which is being tried has come to.
    passed: Vec<bool>,
    /// How many steps may still be tried.
    steps: usize,
}

impl<'a> Paths<'a> {
    /// Prepares the paths by the given edges; the distances are those from the root.
    pub fn new(
        graph: &'a Graph,
        root: usize,
        distance: &[Option<u64>],
        edges: &[usize],
        wanted: &'a [usize],
    ) -> Paths<'a> {
        let weight = |e: usize| graph.edges[e].weight;
        let weightless: Vec<usize> = edges.iter().copied().filter(|&e| weight(e) == 0).collect();
        let mut back = graph.around(edges);
        for (vertex, ways) in back.iter_mut().enumerate() {
            let is_last = |&(e, before): &(usize, usize)| {
                distance[vertex].is_some()
                    && distance[before].map(|d| d + weight(e)) == distance[vertex]
            };
            ways.retain(|way| vertex != root && is_last(way));
        }
        let (group, passed) = (sides(graph, &weightless), vec![false; graph.n]);
        let mut paths =
            Paths { graph, root, wanted, back, group, most: vec![], passed, steps: MOST_STEPS };
        paths.most = paths.most_into_groups(distance);
        paths
    }

    /// Goes outward by distance and notes the most wanted edges for each group, all those inside of it counted in.
    fn most_into_groups(&self, distance: &[Option<u64>]) -> Vec<Option<usize>> {
        let mut inside = vec![0; self.graph.n];
        for &e in self.wanted.iter().filter(|&&e| self.graph.edges[e].weight == 0) {
            inside[self.group[self.graph.edges[e].a]] += 1;
        }
        let mut most = vec![None; self.graph.n];
        most[self.group[self.root]] = Some(inside[self.group[self.root]]);
        let mut outward: Vec<usize> = (0..self.graph.n).collect();
        outward.sort_by_key(|&v| distance[v]);
        for vertex in outward {
            let here = self.group[vertex];
            for &(e, before) in &self.back[vertex] {
                let count = most[self.group[before]].map(|m| m + self.is_wanted(e) + inside[here]);
                if self.graph.edges[e].weight > 0 {
                    most[here] = most[here].max(count);
                }
            }
        }
        most
    }

    /// 1 if an edge is wanted, else 0.
    fn is_wanted(&self, e: usize) -> usize {
        usize::from(self.wanted.binary_search(&e).is_ok())
    }

    /// Whether one of the paths leads to a vertex and holds all that is wanted.
    pub fn lead_to(&mut self, target: usize) -> bool {
        let all = self.wanted.len();
        self.most[self.group[target]] == Some(all)
            && self.lead_back(target, None, all)
            && (self.steps > 0 || self.wanted.iter().all(|&e| self.lies_between(e, target)))
    }

    /// Whether a path can be walked back from a vertex, to which it has come by an edge, so that it holds so many wanted
    /// edges more and ends at the root.
    fn lead_back(&mut self, vertex: usize, by: Option<usize>, open: usize) -> bool {
        if vertex == self.root {
            return open == 0;
        }
        if self.steps == 0 {
            return true;
        }
        self.steps -= 1;
        self.passed[vertex] = true;
        let is_led = self.ways_back(vertex, by, open).into_iter().any(|(e, before)| {
            let open = open - self.is_wanted(e);
            self.lead_back(before, Some(e), open)
        });
        self.passed[vertex] = false;
        is_led
    }

    /// The edges by which a path may go on back from a vertex: a wanted one that is not yet walked if there is one, since the
    /// path comes here only once; and none behind which too little that is wanted lies, or what cannot be come to.
    fn ways_back(&self, vertex: usize, by: Option<usize>, open: usize) -> Vec<(usize, usize)> {
        let due = |&e: &usize| self.ends(e).contains(&vertex) && Some(e) != by;
        let due: Vec<usize> = self.wanted.iter().copied().filter(due).collect();
        let may = |&(e, before): &(usize, usize)| {
            !self.passed[before]
                && (due.is_empty() || due == [e])
                && self.most[self.group[before]] >= Some(open - self.is_wanted(e))
                && (self.graph.edges[e].weight > 0 || self.is_all_in_reach(before))
        };
        self.back[vertex].iter().copied().filter(may).collect()
    }

    /// Whether the root and every wanted edge not yet walked can still be come to from a vertex, each by itself.
    ///
    /// An edge of a vertex that was passed has been walked, or else the path would not have gone on.
    fn is_all_in_reach(&self, from: usize) -> bool {
        let reached = self.reach(from, None);
        let is_walked = |e: usize| self.ends(e).iter().any(|&v| self.passed[v]);
        let is_reached = |e: usize| self.ends(e).iter().all(|&v| reached[v]);
        reached[self.root] && self.wanted.iter().all(|&e| is_walked(e) || is_reached(e))
    }

    /// Whether a path to a target may hold an edge, whatever else it holds: the way back comes to one end without the other,
    /// and from there to the root without the one; and neither end has more wanted edges than a path can hold.
    fn lies_between(&self, e: usize, target: usize) -> bool {
        let [a, b] = self.ends(e);
        let has = |v: usize| self.wanted.iter().filter(|&&e| self.ends(e).contains(&v)).count();
        let leads = |one: usize, other: usize| {
            self.back[one].contains(&(e, other))
                && self.reach(target, Some(other))[one]
                && self.reach(other, Some(one))[self.root]
        };
        has(a) <= 2 && has(b) <= 2 && (leads(a, b) || leads(b, a))
    }

    /// For each vertex, whether the way back from another one may come to it past vertices that were not passed, and not past
    /// a certain one if one is named.
    fn reach(&self, from: usize, without: Option<usize>) -> Vec<bool> {
        let mut reached = vec![false; self.graph.n];
        let mut open = vec![from];
        while let Some(vertex) = open.pop() {
            let is_free = !self.passed[vertex] && Some(vertex) != without;
            if is_free && !std::mem::replace(&mut reached[vertex], true) {
                open.extend(self.back[vertex].iter().map(|way| way.1));
            }
        }
        reached
    }

    fn ends(&self, e: usize) -> [usize; 2] {
        [self.graph.edges[e].a, self.graph.edges[e].b]
    }
}
