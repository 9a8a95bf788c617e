//! The closed walk of one tree of a filed cover.

use crate::check::{checked, Checked};
use crate::graph::Around;
use crate::question::Question;

/// The least length of a walk's buffer in bytes.
pub const WALK_BUFFER: usize = 1_022;

/// The number of no edge.
const NONE: u16 = u16::MAX;

/// Answers 0, with the number of stops and the length as values and the stops at the buffer's front, otherwise with the
/// number of the refusal.
pub fn walk(
    question: Question,
    cover: &[u8],
    tree: usize,
    values: &mut [u64; 2],
    buffer: &mut [u8],
) -> u32 {
    match walked(&question, cover, tree, buffer) {
        Ok(said) => {
            *values = said;
            0
        }
        Err(number) => number,
    }
}

/// The values of a walk, which is written, or the number of the refusal.
fn walked(
    question: &Question,
    cover: &[u8],
    tree: usize,
    buffer: &mut [u8],
) -> Result<[u64; 2], u32> {
    let Checked { graph, filed, .. } = checked(question, cover)?;
    if tree >= filed.t {
        return Err(51);
    }
    if buffer.len() < WALK_BUFFER {
        return Err(52);
    }
    let around = Around::new(&graph, filed.edges(tree));
    Ok(write(&around, filed.start(tree), buffer))
}

/// Walks the arcs of a tree from its start, each vertex's by edge number, and writes every stop; gives their number and the
/// length.
fn write(around: &Around, start: u16, buffer: &mut [u8]) -> [u64; 2] {
    let (mut stops, mut length) = (0, 0);
    let mut put = |stop: u16| {
        buffer[2 * stops..2 * stops + 2].copy_from_slice(&stop.to_le_bytes());
        stops += 1;
    };
    put(start);
    // The vertices from the start to where the walk stands: of each the arcs not yet gone through, and the edge of arrival.
    let mut way = Vec::with_capacity(256);
    way.push((start, around.of(start).iter(), NONE));
    while let Some((_, arcs, arrival)) = way.last_mut() {
        if let Some(arc) = arcs.find(|arc| arc.edge != *arrival) {
            length += 2 * u64::from(arc.weight);
            put(arc.to);
            way.push((arc.to, around.of(arc.to).iter(), arc.edge));
            continue;
        }
        way.pop();
        if let Some((before, _, _)) = way.last() {
            put(*before);
        }
    }
    [stops as u64, length]
}
