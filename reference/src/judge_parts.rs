//! Judging the parts that show a rooted limit to be too low.

use std::collections::HashMap;

use crate::assignment::roots_near;
use crate::cover::Tree;
use crate::rooted::Plan;

/// Judges written parts: some of the plan's, by smallest edge, with exactly so many roots near them.
pub fn judge(plan: &Plan, written: &[Tree], roots: usize) -> Result<(), String> {
    let mut marked = vec![false; plan.parts.len()];
    for tree in written {
        let Some(place) = plan.parts.iter().position(|part| part == tree) else {
            return Err(format!("{tree:?} is no part"));
        };
        marked[place] = true;
    }
    let rising = |pair: &[Tree]| pair[0].edges[0] < pair[1].edges[0];
    if !written.windows(2).all(rising) {
        return Err("the parts do not rise by smallest edge".into());
    }
    let near = roots_near(plan.roots.len(), &plan.allowed, &marked);
    if near != roots {
        return Err(format!("{near} roots are near the parts, not {roots}"));
    }
    if near >= written.len() {
        return Err(format!("{near} roots are not fewer than the parts"));
    }
    Ok(())
}

/// How many sets of roots are looked at before the search below gives up.
const MOST_SETS: usize = 200_000;

/// Whether some set of so many parts has exactly so many roots near it, or nothing if undecided.
///
/// Every union of the parts' root sets is noted with the fewest parts that reach it; more parts
/// can be added as long as their roots lie inside that union.
pub fn some_set_has(plan: &Plan, parts: usize, roots: usize) -> Option<bool> {
    let k = plan.roots.len();
    let near = |row: &[u8]| (0..k).fold(0u64, |set, j| set | (u64::from(row[j]) << j));
    let sets: Vec<u64> = plan.allowed.chunks(k).map(near).collect();
    let mut fewest: HashMap<u64, usize> = HashMap::from([(0, 0)]);
    for &set in &sets {
        let known: Vec<(u64, usize)> = fewest.iter().map(|(&u, &c)| (u, c)).collect();
        for (union, count) in known {
            let best = fewest.entry(union | set).or_insert(count + 1);
            *best = (*best).min(count + 1);
        }
        if fewest.len() > MOST_SETS {
            return None;
        }
    }
    let inside = |union: u64| sets.iter().filter(|&&set| set & !union == 0).count();
    let fits = |(&union, &count): (&u64, &usize)| {
        union.count_ones() as usize == roots && count <= parts && parts <= inside(union)
    };
    Some(parts > 0 && fewest.iter().any(fits))
}
