//! A quick plain Rust version of the planner, to measure the proved one beside. It stands here alone: no other package
//! uses it, and its answers are held to `reference/` by the tests.
//!
//! What makes it quick: the order of the edges, the whole forest, its walk and the distances are made once a question;
//! a trial inside the search only decides; the cover is written once.

pub mod assign;
pub mod best;
pub mod check;
pub mod cover;
pub mod distance;
pub mod forest;
pub mod graph;
#[cfg(linked)]
pub mod library;
pub mod made;
pub mod measure;
pub mod planners;
pub mod question;
pub mod rooted;
pub mod roots;
pub mod split;
pub mod trial;
pub mod unrooted;
pub mod walk;
