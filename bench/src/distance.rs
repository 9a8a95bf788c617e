//! Distances from the roots, by Dijkstra's method with a binary heap.

use std::cmp::Reverse;
use std::collections::BinaryHeap;

use crate::graph::{Around, Graph};
use crate::roots::Roots;

/// The distance where no path leads: above every limit.
const NONE: u32 = u32::MAX;

/// The arcs of the whole graph and the distance of each vertex from each vertex that is a root, in the order of their places.
pub struct Distances<'a> {
    roots: &'a Roots,
    around: Around,
    from: Vec<Vec<u32>>,
}

impl Distances<'_> {
    /// The distances from the roots: one search for all trees that start at a vertex.
    pub fn new<'a>(graph: &Graph, roots: &'a Roots) -> Distances<'a> {
        let around = Around::new(graph, 0..graph.edges.len() as u16);
        let mut heap = BinaryHeap::with_capacity(2 * graph.edges.len() + 1);
        let from_root = |root| from_root(&around, graph.n, root, &mut heap);
        let from = roots.vertices().map(from_root).collect();
        Distances { roots, around, from }
    }

    /// The trees whose roots are within the limit of each vertex, as bits.
    pub fn near(&self, limit: u64) -> [u32; 256] {
        let limit = limit.min(u64::from(NONE - 1)) as u32;
        let mut near = [0u32; 256];
        for (place, distances) in self.from.iter().enumerate() {
            let trees = self.roots.trees(place);
            for (bits, distance) in near.iter_mut().zip(distances) {
                *bits |= if *distance <= limit { trees } else { 0 };
            }
        }
        near
    }

    /// Adds the edges of a shortest path from a tree's root to the nearest of some vertices, at least one of which it reaches.
    pub fn path_to(&self, tree: usize, vertices: impl Iterator<Item = u16>, path: &mut Vec<u16>) {
        let place = self.roots.place(tree);
        let (root, distance) = (self.roots.vertex(place), &self.from[place]);
        let nearest = vertices.min_by_key(|&v| distance[v as usize]);
        let end = nearest.expect("a part has vertices");
        let led_back = self.back(distance, root, end, &mut [false; 256], path);
        assert!(led_back, "a vertex reached");
    }

    /// Adds the edges of a shortest path from a vertex back to the root, depth first over the arcs that such paths may take.
    /// Weightless ones may lead in a circle, or nowhere new: no vertex is entered twice. Whether the root was reached.
    fn back(
        &self,
        distance: &[u32],
        root: u16,
        at: u16,
        entered: &mut [bool; 256],
        path: &mut Vec<u16>,
    ) -> bool {
        if at == root {
            return true;
        }
        entered[at as usize] = true;
        for arc in self.around.of(at) {
            let through = distance[arc.to as usize].checked_add(arc.weight);
            if entered[arc.to as usize] || through != Some(distance[at as usize]) {
                continue;
            }
            path.push(arc.edge);
            if self.back(distance, root, arc.to, entered, path) {
                return true;
            }
            path.pop();
        }
        false
    }
}

/// The distances from one root; the heap comes and goes empty. Its keys are a distance and a vertex in one number.
fn from_root(
    around: &Around,
    n: usize,
    root: u16,
    heap: &mut BinaryHeap<Reverse<u64>>,
) -> Vec<u32> {
    let mut distance = vec![NONE; n];
    distance[root as usize] = 0;
    heap.push(Reverse(u64::from(root)));
    while let Some(Reverse(key)) = heap.pop() {
        let (near, vertex) = ((key >> 16) as u32, key as u16);
        if near > distance[vertex as usize] {
            continue;
        }
        for arc in around.of(vertex) {
            let through = near + arc.weight;
            if through < distance[arc.to as usize] {
                distance[arc.to as usize] = through;
                heap.push(Reverse(u64::from(through) << 16 | u64::from(arc.to)));
            }
        }
    }
    distance
}
