//! The vans of a rooted question: the vertex that each tree starts at, which several trees may share.

use crate::bytes::{put_two, two};

/// The trees that a question asks for.
///
/// A number k stands for the roots 0 to k - 1, which is what callers without a list mean; a list names the root of each
/// tree. Without roots only the number of trees counts.
pub trait Crews {
    /// The root of each tree.
    fn roots(&self) -> Vec<usize>;
}

impl Crews for usize {
    fn roots(&self) -> Vec<usize> {
        (0..*self).collect()
    }
}

impl Crews for [usize] {
    fn roots(&self) -> Vec<usize> {
        self.to_vec()
    }
}

impl Crews for Vec<usize> {
    fn roots(&self) -> Vec<usize> {
        self.clone()
    }
}

impl<T: Crews + ?Sized> Crews for &T {
    fn roots(&self) -> Vec<usize> {
        (**self).roots()
    }
}

/// Reads a list of k vertices below n, two bytes each, or refuses it with 55.
pub fn read(list: &[u8], n: usize, k: usize) -> Result<Vec<usize>, u16> {
    if list.len() != 2 * k {
        return Err(55);
    }
    let vans: Vec<usize> = (0..k).map(|j| two(list, 2 * j)).collect();
    if vans.iter().any(|&van| van >= n) {
        return Err(55);
    }
    Ok(vans)
}

/// A list as bytes, right or wrong.
pub fn bytes(vans: &[usize]) -> Vec<u8> {
    let mut out = Vec::with_capacity(2 * vans.len());
    vans.iter().for_each(|&van| put_two(&mut out, van));
    out
}

/// Whether no van before this one has its vertex; what is left there goes to that van.
pub fn is_first(vans: &[usize], j: usize) -> bool {
    !vans[..j].contains(&vans[j])
}
