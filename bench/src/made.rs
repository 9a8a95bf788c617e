//! The graphs that are measured, from a generator with a fixed start.

/// How large a question is.
#[derive(Clone, Copy, Debug)]
pub struct Size {
    pub n: usize,
    pub m: usize,
    pub k: usize,
}

/// Full size, a half, a quarter and a sixteenth of it.
pub const SIZES: [Size; 4] = [
    Size { n: 256, m: 2_048, k: 32 },
    Size { n: 128, m: 1_024, k: 16 },
    Size { n: 64, m: 512, k: 8 },
    Size { n: 16, m: 128, k: 2 },
];

/// How the edges lie. Where a shape has fewer than m pairs, they are repeated with other weights.
#[derive(Clone, Copy, Debug, PartialEq, Eq)]
pub enum Shape {
    /// A random tree, and random pairs.
    Random,
    Grid,
    Path,
    Star,
    /// A path with a leg at each of its vertices.
    Caterpillar,
}

pub const SHAPES: [Shape; 5] =
    [Shape::Random, Shape::Grid, Shape::Path, Shape::Star, Shape::Caterpillar];

impl Shape {
    pub fn name(self) -> &'static str {
        match self {
            Shape::Random => "random",
            Shape::Grid => "grid",
            Shape::Path => "path",
            Shape::Star => "star",
            Shape::Caterpillar => "caterpillar",
        }
    }
}

/// Made numbers: splitmix64.
struct Made(u64);

impl Made {
    fn next(&mut self) -> u64 {
        self.0 = self.0.wrapping_add(0x9e37_79b9_7f4a_7c15);
        let a = (self.0 ^ (self.0 >> 30)).wrapping_mul(0xbf58_476d_1ce4_e5b9);
        let b = (a ^ (a >> 27)).wrapping_mul(0x94d0_49bb_1331_11eb);
        b ^ (b >> 31)
    }

    fn below(&mut self, bound: usize) -> usize {
        (self.next() % bound as u64) as usize
    }

    fn shuffle<T>(&mut self, list: &mut [T]) {
        for i in (1..list.len()).rev() {
            list.swap(i, self.below(i + 1));
        }
    }
}

/// The sheet bytes of a shape at a size: always the same, connected, its vertices and edges numbered at random.
pub fn sheet(shape: Shape, size: &Size) -> Vec<u8> {
    weighed(&mut Made(shape as u64), shape, size, |made| 1 + made.below(1_000_000) as u32)
}

/// Such bytes with a weightless edge among every sixteen, give or take.
pub fn gated(shape: Shape, size: &Size) -> Vec<u8> {
    let weight =
        |made: &mut Made| if made.below(16) == 0 { 0 } else { 1 + made.below(1_000_000) as u32 };
    weighed(&mut Made(shape as u64), shape, size, weight)
}

/// Such bytes, and a class for each edge: one that counts 100, 120, 150 or 200 percent, each as often. The weights are up to
/// 500,000, so that none is above 1,000,000 when it is adjusted.
pub fn surfaced(shape: Shape, size: &Size) -> (Vec<u8>, Vec<u8>) {
    let mut made = Made(shape as u64);
    let sheet = weighed(&mut made, shape, size, |made| 1 + made.below(500_000) as u32);
    let class = |_| [0, 10, 20, 40][made.below(4)] + made.below(10) as u8;
    (sheet, (0..size.m).map(class).collect())
}

/// A list of vans at random vertices; every fourth has the vertex of one before it.
pub fn spread(size: &Size) -> Vec<u8> {
    let mut made = Made(size.n as u64);
    let mut vans: Vec<u16> = Vec::with_capacity(size.k);
    for van in 0..size.k {
        let again = van % 4 == 3;
        vans.push(if again { vans[made.below(van)] } else { made.below(size.n) as u16 });
    }
    vans.into_iter().flat_map(u16::to_le_bytes).collect()
}

/// A list of as many vans, all of them at one vertex.
pub fn together(size: &Size) -> Vec<u8> {
    (size.n as u16 / 2).to_le_bytes().repeat(size.k)
}

/// The sheet bytes of a shape at a size, with made weights.
fn weighed(
    made: &mut Made,
    shape: Shape,
    size: &Size,
    weight: impl Fn(&mut Made) -> u32,
) -> Vec<u8> {
    let mut pairs = pairs(made, shape, size.n);
    while pairs.len() < size.m {
        pairs.push(match shape {
            Shape::Random => {
                let a = made.below(size.n);
                (a, (a + 1 + made.below(size.n - 1)) % size.n)
            }
            _ => pairs[made.below(pairs.len())],
        });
    }
    made.shuffle(&mut pairs);
    let mut name: Vec<u16> = (0..size.n as u16).collect();
    made.shuffle(&mut name);
    let mut out = Vec::with_capacity(4 + 8 * size.m);
    out.extend((size.n as u16).to_le_bytes());
    out.extend((size.m as u16).to_le_bytes());
    for (a, b) in pairs {
        out.extend(name[a].to_le_bytes());
        out.extend(name[b].to_le_bytes());
    }
    for _ in 0..size.m {
        out.extend(weight(made).to_le_bytes());
    }
    out
}

/// The pairs of vertices that a shape joins; for a random one, those of a random tree.
fn pairs(made: &mut Made, shape: Shape, n: usize) -> Vec<(usize, usize)> {
    match shape {
        Shape::Random => (1..n).map(|v| (made.below(v), v)).collect(),
        Shape::Grid => {
            let width = (1..=n).find(|w| w * w >= n).unwrap_or(1);
            let right = (0..n).filter(|v| v % width + 1 < width && v + 1 < n).map(|v| (v, v + 1));
            let below = (0..n).filter(|v| v + width < n).map(|v| (v, v + width));
            right.chain(below).collect()
        }
        Shape::Path => (1..n).map(|v| (v - 1, v)).collect(),
        Shape::Star => (1..n).map(|v| (0, v)).collect(),
        Shape::Caterpillar => {
            let half = n / 2;
            (1..n).map(|v| if v < half { (v - 1, v) } else { (v - half, v) }).collect()
        }
    }
}
