//! What the tests of the exported functions share.

pub mod call;
pub mod judged;
mod lent;
mod trials;
