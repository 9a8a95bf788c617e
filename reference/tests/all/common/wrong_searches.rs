//! Searches and replies by wrong readings of a number of trials, each with one thing exchanged.

use super::wrong_within::{Come, Put};
use reference::cover::Tree;
use reference::forest::{rooted, unrooted};
use reference::question::Kind;

/// Halves what a search that has begun leaves between low and high, as far as p trials go.
fn go_on(put: &Put, come: &mut Come) {
    while come.apart() > 1 && come.made() < put.p {
        come.try_at(put, (come.low + come.high) / 2);
    }
}

/// The sum is tried before 0.
pub fn sum_first(put: &Put) -> Come {
    let mut come = Come::default();
    come.try_at(put, put.sum);
    if !come.try_at(put, 0) {
        go_on(put, &mut come);
    }
    come
}

/// Limit 0 is not tried, and is low all the same.
pub fn without_0(put: &Put) -> Come {
    let mut come = Come::default();
    come.try_at(put, put.sum);
    go_on(put, &mut come);
    come
}

/// One trial where p is 1: the sum is high without having been tried.
pub fn one_trial(put: &Put) -> Come {
    if put.p > 1 {
        return put.searched(put.p);
    }
    let mut come = Come::default();
    if !come.try_at(put, 0) {
        come.high = put.sum;
    }
    come
}

/// A middle that is accepted becomes low, and one that is not becomes high.
pub fn turned_round(put: &Put) -> Come {
    let mut come = Come::default();
    let goes_on = come.begin(put);
    while goes_on && come.apart() > 1 && come.made() < put.p {
        let (low, high) = (come.low, come.high);
        let middle = (low + high) / 2;
        let is_accepted = come.try_at(put, middle);
        (come.low, come.high) = if is_accepted { (middle, high) } else { (low, middle) };
    }
    come
}

/// A search with something done behind each of its later trials, which is told whether that was accepted.
fn adjusting(put: &Put, adjust: impl Fn(&mut Come, bool)) -> Come {
    let mut come = Come::default();
    let goes_on = come.begin(put);
    if goes_on {
        adjust(&mut come, true);
    }
    while goes_on && come.apart() > 1 && come.made() < put.p {
        let middle = (come.low + come.high) / 2;
        let is_accepted = come.try_at(put, middle);
        adjust(&mut come, is_accepted);
    }
    come
}

/// Low becomes the number behind a middle that is not accepted.
pub fn past_the_middle(put: &Put) -> Come {
    adjusting(put, |come, is_accepted| come.low += u64::from(!is_accepted))
}

/// High comes down to the heaviest tree that was found.
pub fn down_to_the_heaviest(put: &Put) -> Come {
    adjusting(put, |come, _| come.high = come.high.min(put.heaviest(&come.cover)))
}

/// After p trials the search goes on until one is accepted.
pub fn until_accepted(put: &Put) -> Come {
    let is_refused = |come: &Come| come.tried.last().is_some_and(|tried| tried.1.is_none());
    let further = (put.p..).map(|p| put.searched(p));
    further.take(33).find(|come| !is_refused(come) || come.apart() <= 1).expect("an end")
}

/// Where trials are left, high is tried again.
pub fn high_once_more(put: &Put) -> Come {
    let mut come = put.searched(put.p);
    if come.made() < put.p {
        come.try_at(put, come.high);
    }
    come
}

/// The limits are spread evenly over the sum, as many as p allows, up to the first that is accepted.
pub fn even_steps(put: &Put) -> Come {
    let mut come = Come::default();
    if come.begin(put) {
        let mut steps = (1..put.p - 1).map(|i| put.sum * i / (put.p - 1));
        steps.find(|&limit| limit > come.low && come.try_at(put, limit));
    }
    come
}

/// The search begins with another sum.
pub fn summing(put: &Put, sum: u64) -> Come {
    Put { sum, ..*put }.searched(put.p)
}

/// The weight of the edges that join everything.
pub fn joining(put: &Put) -> u64 {
    let forest = match put.kind {
        Kind::Rooted => rooted(put.graph, put.roots, put.sum),
        Kind::Unrooted => unrooted(put.graph, put.sum),
    };
    put.graph.weight(&forest.kept)
}

/// The best limit and its cover.
pub fn whole(put: &Put) -> (u64, Vec<Tree>) {
    let come = put.searched(33);
    (come.high, come.cover)
}

/// The last limit tried, accepted or not.
pub fn last_tried(come: &Come, _: &Put) -> (u64, Vec<Tree>) {
    (come.tried.last().expect("a trial").0, come.cover.clone())
}

/// The cover of the first limit accepted.
pub fn first_accepted(come: &Come, _: &Put) -> (u64, Vec<Tree>) {
    let cover = come.tried.iter().find_map(|tried| tried.1.clone());
    (come.high, cover.expect("a cover"))
}

/// The cover with the lightest heaviest tree of all that were found.
pub fn lightest(come: &Come, put: &Put) -> (u64, Vec<Tree>) {
    let covers = come.tried.iter().rev().filter_map(|tried| tried.1.clone());
    (come.high, covers.min_by_key(|cover| put.heaviest(cover)).expect("a cover"))
}
