//! Rooted ("yard") questions: what is made once, the decision at a limit, and the trees.

use crate::assign::{assign, assignable, Assigned};
use crate::cover::Tree;
use crate::distance::Distances;
use crate::forest::{keep, order, Joined};
use crate::graph::Graph;
use crate::roots::Roots;
use crate::split::{near_parts, split, splits_into, walk, Piece, Walk};

/// What all limits share at which every vertex is joined to a root.
pub struct Rooted<'a> {
    pub graph: &'a Graph,
    roots: &'a Roots,
    /// The weight of the heaviest edge of the forest: below it some vertex is joined to no root.
    pub heaviest_edge: u64,
    pub walk: Walk,
    distances: Option<Distances<'a>>,
    near: Vec<u32>,
}

/// What is found at a limit: the parts, what is left at each vertex, the trees near each part as bits, and their assignment.
pub struct Placed {
    pub parts: Vec<Piece>,
    pub left: Vec<Vec<u16>>,
    pub near: Vec<u32>,
    pub assigned: Assigned,
}

/// Prepares the limits up to one, or gives the lowest vertex that is joined to no root at it.
pub fn prepare<'a>(graph: &'a Graph, roots: &'a Roots, limit: u64) -> Result<Rooted<'a>, u16> {
    let mut joined = Joined::rooted(graph.n, roots);
    let due = graph.n - roots.count();
    let mut kept = keep(graph, &order(graph), limit, &mut joined, due);
    if kept.len() < due {
        let home = joined.find(roots.vertex(0));
        let alone = (0..graph.n as u16).find(|&v| joined.find(v) != home);
        return Err(alone.expect("too few edges leave a vertex alone"));
    }
    let heaviest_edge = kept.last().map_or(0, |&e| graph.key(e) >> 16);
    kept.sort_unstable();
    let walk = walk(graph, &kept, roots.vertices());
    Ok(Rooted { graph, roots, heaviest_edge, walk, distances: None, near: Vec::new() })
}

impl<'a> Rooted<'a> {
    /// The distances, made at their first use.
    fn distances(&mut self) -> &Distances<'a> {
        let (graph, roots) = (self.graph, self.roots);
        self.distances.get_or_insert_with(|| Distances::new(graph, roots))
    }

    /// Whether a limit above 0 is accepted.
    pub fn accepts(&mut self, limit: u64) -> bool {
        if limit < self.heaviest_edge
            || !splits_into(&self.walk, self.graph.n, limit, self.roots.k())
        {
            return false;
        }
        let near = self.distances().near(limit);
        near_parts(&self.walk, limit, &near, &mut self.near);
        assignable(&self.near)
    }

    /// Splits at a limit at which every vertex is joined, and assigns the parts.
    pub fn place(&mut self, limit: u64) -> Placed {
        let (parts, left) = split(&self.walk, self.graph.n, limit);
        let mut near = Vec::new();
        if !parts.is_empty() {
            let of_vertices = self.distances().near(limit);
            near_parts(&self.walk, limit, &of_vertices, &mut near);
        }
        let assigned = assign(&near);
        Placed { parts, left, near, assigned }
    }

    /// The trees of an assignment, which gives the tree of each part.
    pub fn trees(&mut self, parts: Vec<Piece>, left: Vec<Vec<u16>>, assigned: &[u8]) -> Vec<Tree> {
        let (graph, roots) = (self.graph, self.roots);
        let mut unions = roots.shares(left);
        let mut joined = Joined::apart(graph.n);
        for (part, &tree) in parts.iter().zip(assigned) {
            let ends = |&e: &u16| {
                let edge = graph.edges[e as usize];
                [edge.a, edge.b]
            };
            let union = &mut unions[tree as usize];
            union.extend(&part.edges);
            let vertices = part.edges.iter().flat_map(ends);
            self.distances().path_to(tree as usize, vertices, union);
            thin(graph, union, &mut joined);
        }
        let start = |tree| roots.vertex(roots.place(tree));
        unions.into_iter().zip(0..).map(|(edges, tree)| Tree::new(start(tree), edges)).collect()
    }
}

/// Keeps the edges of a union, by weight, then number, whose ends are not yet joined. Nothing is joined before and after.
fn thin(graph: &Graph, union: &mut Vec<u16>, joined: &mut Joined) {
    union.sort_unstable_by_key(|&e| graph.key(e));
    union.dedup();
    let all = union.clone();
    union.retain(|&e| {
        let edge = graph.edges[e as usize];
        joined.join(edge.a, edge.b)
    });
    for e in all {
        let edge = graph.edges[e as usize];
        joined.reset(edge.a);
        joined.reset(edge.b);
    }
}
