//! Wrong readings of the bytes of a list of vans, of the place of 55 among the numbers, and of rule 32.

use super::readings::{of_limit_and_room, Admitted, Reading, RIGHT};
use super::wrong_vans::once;
use reference::bytes::two;
use reference::check::check_on;
use reference::cover::decode;
use reference::districts::{Asked, Record};
use reference::graph::Graph;
use reference::question::Kind;
use reference::vans::read as read_list;

/// The roots of a record, or 21 or 55, as they should be.
fn right(record: &Record, n: usize) -> Result<Vec<usize>, u16> {
    (RIGHT.crews)(record, n)
}

/// The list of a rooted record, if it brings one.
fn list_of(record: &Record) -> Option<&[u8]> {
    record.vans.as_deref().filter(|_| record.kind == Kind::Rooted)
}

/// The roots with another list in place of the one brought.
pub fn with_list(
    record: &Record,
    n: usize,
    other: impl Fn(&[u8]) -> Option<Vec<u8>>,
) -> Result<Vec<usize>, u16> {
    let vans = list_of(record).map_or(record.vans.clone(), other);
    right(&Record { vans, ..record.clone() }, n)
}

/// The roots with each number of the list changed; a byte without a second one stays.
pub fn with_numbers(
    record: &Record,
    n: usize,
    other: impl Fn(usize, [u8; 2]) -> [u8; 2],
) -> Result<Vec<usize>, u16> {
    with_list(record, n, |list| {
        let pairs = list.chunks_exact(2).enumerate();
        let changed: Vec<u8> = pairs.flat_map(|(j, two)| other(j, [two[0], two[1]])).collect();
        Some([&changed[..], &list[changed.len()..]].concat())
    })
}

/// The vertices of a list taken modulo n, where they may be.
pub fn wrapped(
    record: &Record,
    n: usize,
    may_be: impl Fn(usize, usize) -> bool,
) -> Result<Vec<usize>, u16> {
    with_numbers(record, n, |j, bytes| {
        let vertex = two(&bytes, 0);
        if may_be(j, vertex) {
            [(vertex % n) as u8, 0]
        } else {
            bytes
        }
    })
}

/// 21 for k above n with a list too.
pub fn above_n_refused(record: &Record, n: usize) -> Result<Vec<usize>, u16> {
    match record.kind {
        Kind::Rooted if record.k > n => Err(21),
        _ => right(record, n),
    }
}

/// A list in which a vertex repeats is refused with 55.
pub fn repeats_refused(record: &Record, n: usize) -> Result<Vec<usize>, u16> {
    let roots = right(record, n)?;
    if once(&roots).len() < roots.len() {
        return Err(55);
    }
    Ok(roots)
}

/// The roots in another order, those of a list alone.
pub fn reordered(
    record: &Record,
    n: usize,
    order: impl Fn(&mut Vec<usize>),
) -> Result<Vec<usize>, u16> {
    let mut roots = right(record, n)?;
    if list_of(record).is_some() {
        order(&mut roots);
    }
    Ok(roots)
}

/// A shorter list is read as far as it goes and names so many vans.
pub fn as_far_as_it_goes(record: &Record, n: usize) -> Result<Vec<usize>, u16> {
    match list_of(record) {
        Some(list) if (1..=32).contains(&record.k) && list.len() < 2 * record.k => {
            read_list(&list[..list.len() / 2 * 2], n, list.len() / 2)
        }
        _ => right(record, n),
    }
}

/// A shorter list is filled up with the vans 0 to k - 1 that it does not name.
pub fn filled_up(record: &Record, n: usize) -> Result<Vec<usize>, u16> {
    with_list(record, n, |list| {
        let named = list.len() / 2;
        let more = (named..record.k).flat_map(|j| [j as u8, 0]);
        Some(list[..2 * named].iter().copied().chain(more).collect())
    })
}

/// A longer list is cut.
pub fn cut(record: &Record, n: usize) -> Result<Vec<usize>, u16> {
    with_list(record, n, |list| Some(list[..list.len().min(2 * record.k)].to_vec()))
}

/// A wrong list is refused beside an unrooted question too.
pub fn read_without_roots(record: &Record, n: usize) -> Result<Vec<usize>, u16> {
    let roots = right(record, n)?;
    match &record.vans {
        Some(list) if record.kind == Kind::Unrooted => read_list(list, n, record.k).map(|_| roots),
        _ => Ok(roots),
    }
}

/// A wrong list is no list where k is above n, and so refused with 21.
pub fn wrong_list_is_none(record: &Record, n: usize) -> Result<Vec<usize>, u16> {
    right(record, n).map_err(|number| if record.k > n { 21 } else { number })
}

/// Without a list k may be above n, and the vans go round.
pub fn unlisted_above_n(record: &Record, n: usize) -> Result<Vec<usize>, u16> {
    match (record.kind, &record.vans) {
        (Kind::Rooted, None) if record.k <= 32 => Ok((0..record.k).map(|j| j % n).collect()),
        _ => right(record, n),
    }
}

/// What is refused with 55 is refused with another number that comes first.
fn behind(record: &Record, before: Result<(), u16>) -> Admitted {
    match (RIGHT.admitted)(&RIGHT, record) {
        Err(55) => before.and(Err(55)),
        admitted => admitted,
    }
}

/// 55 comes after 22.
pub fn after_22(_: &Reading, record: &Record) -> Admitted {
    behind(record, of_limit_and_room(record).or_else(|n| if n == 22 { Err(22) } else { Ok(()) }))
}

/// 55 comes after 22 and 23.
pub fn after_23(_: &Reading, record: &Record) -> Admitted {
    behind(record, of_limit_and_room(record))
}

/// 55 comes after 31.
pub fn after_31(_: &Reading, record: &Record) -> Admitted {
    let of_length = match &record.asked {
        Asked::Check { cover } => decode(cover).map(|_| ()),
        _ => Ok(()),
    };
    behind(record, of_length)
}

/// 55 comes before 21, be k what it may, or before 53 and 54 too.
pub fn early(record: &Record, n: usize) -> Admitted {
    if let Some(list) = list_of(record) {
        read_list(list, n, record.k)?;
    }
    (RIGHT.admitted)(&RIGHT, record)
}

/// The check with other starts in place of those of the list, if it may be.
pub fn starting(
    (kind, graph, roots, cover): (Kind, &Graph, &[usize], &[u8]),
    may_be: impl Fn(&[usize]) -> bool,
) -> Result<u64, u16> {
    match decode(cover) {
        Ok(filed) if kind == Kind::Rooted && may_be(&filed.starts) => {
            check_on(kind, graph, &filed.starts, cover)
        }
        _ => check_on(kind, graph, roots, cover),
    }
}

/// A list in order.
pub fn sorted(list: &[usize]) -> Vec<usize> {
    let mut list = list.to_vec();
    list.sort_unstable();
    list
}
