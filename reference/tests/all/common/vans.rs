//! Lists of vans: their bytes, and random ones beside small graphs.

use reference::bytes::put_two;
use reference::random::Random;

/// The bytes of a list, two for each van.
pub fn list(vans: &[usize]) -> Vec<u8> {
    let mut out = Vec::new();
    vans.iter().for_each(|&van| put_two(&mut out, van));
    out
}

/// Up to so many vans on n vertices: anywhere, all at one or two of them, or each at another as long as there are any.
pub fn any_vans(random: &mut Random, n: usize, most: usize) -> Vec<usize> {
    let k = random.between(1, most);
    let pair = [random.below(n), random.below(n)];
    let first = random.below(n);
    match random.below(4) {
        0 => vec![pair[0]; k],
        1 => (0..k).map(|_| pair[random.below(2)]).collect(),
        2 => (0..k).map(|j| (first + j) % n).collect(),
        _ => (0..k).map(|_| random.below(n)).collect(),
    }
}
