//! The roots of a rooted question: where its trees start.

/// Where the trees of a rooted question start.
pub enum Roots {
    /// Tree j at vertex j, for so many trees.
    First(usize),
    /// At the vertices of a list.
    Listed(Vans),
}

/// Trees ("vans") at listed vertices, of which several may be the same.
pub struct Vans {
    /// The vertices, each once, in the order of their lowest trees.
    vertices: Vec<u16>,
    /// The trees that start at each of these vertices, as bits.
    trees: Vec<u32>,
    /// The place of each tree's vertex among them.
    places: Vec<u8>,
}

/// The vertices of a list, two bytes each.
fn vertices(list: &[u8]) -> impl Iterator<Item = u16> + '_ {
    list.chunks_exact(2).map(|van| u16::from_le_bytes([van[0], van[1]]))
}

/// Whether a list names k vertices below n.
pub fn fits(list: &[u8], k: usize, n: usize) -> bool {
    list.len() == 2 * k && vertices(list).all(|vertex| (vertex as usize) < n)
}

impl Roots {
    /// The roots of k trees, by a list that fits, or without one.
    pub fn new(k: usize, list: Option<&[u8]>) -> Roots {
        match list {
            Some(list) => Roots::Listed(Vans::read(list)),
            None => Roots::First(k),
        }
    }

    /// The number of trees.
    pub fn k(&self) -> usize {
        match self {
            Roots::First(k) => *k,
            Roots::Listed(vans) => vans.places.len(),
        }
    }

    /// The number of vertices that are roots.
    pub fn count(&self) -> usize {
        match self {
            Roots::First(k) => *k,
            Roots::Listed(vans) => vans.vertices.len(),
        }
    }

    /// The vertex at a place among the roots.
    pub fn vertex(&self, place: usize) -> u16 {
        match self {
            Roots::First(_) => place as u16,
            Roots::Listed(vans) => vans.vertices[place],
        }
    }

    /// The vertices that are roots, each once.
    pub fn vertices(&self) -> impl Iterator<Item = u16> + '_ {
        (0..self.count()).map(|place| self.vertex(place))
    }

    /// The trees that start at the vertex at a place, as bits.
    pub fn trees(&self, place: usize) -> u32 {
        match self {
            Roots::First(_) => 1 << place,
            Roots::Listed(vans) => vans.trees[place],
        }
    }

    /// The place of a tree's vertex.
    pub fn place(&self, tree: usize) -> usize {
        match self {
            Roots::First(_) => tree,
            Roots::Listed(vans) => vans.places[tree] as usize,
        }
    }

    /// What each tree has of what is left at each vertex: the lowest tree of a vertex all of it, the others nothing.
    pub fn shares(&self, mut left: Vec<Vec<u16>>) -> Vec<Vec<u16>> {
        match self {
            Roots::First(k) => {
                left.truncate(*k);
                left
            }
            Roots::Listed(vans) => {
                let vertex = |&place: &u8| vans.vertices[place as usize] as usize;
                let take = |place| std::mem::take(&mut left[vertex(place)]);
                vans.places.iter().map(take).collect()
            }
        }
    }
}

/// The place of a vertex that is no root.
const NONE: u8 = u8::MAX;

impl Vans {
    /// Reads a list that fits.
    fn read(list: &[u8]) -> Vans {
        let k = list.len() / 2;
        let mut vans = Vans {
            vertices: Vec::with_capacity(k),
            trees: Vec::with_capacity(k),
            places: Vec::with_capacity(k),
        };
        let mut place_of = [NONE; 256];
        for (tree, vertex) in vertices(list).enumerate() {
            let place = &mut place_of[vertex as usize];
            if *place == NONE {
                *place = vans.vertices.len() as u8;
                vans.vertices.push(vertex);
                vans.trees.push(0);
            }
            vans.trees[*place as usize] |= 1 << tree;
            vans.places.push(*place);
        }
        vans
    }
}
