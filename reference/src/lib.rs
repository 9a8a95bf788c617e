//! A plain second implementation of min-max tree covers of a graph, to test the first one against.
//!
//! It is written from the rules alone, in the words of the field: a vertex is a "stop", an edge
//! a "line", a root a "yard"; a rooted question is a "yard" question, an unrooted one "roving".

pub mod assignment;
pub mod best;
pub mod brought;
pub mod bytes;
pub mod check;
pub mod cover;
pub mod distance;
pub mod districts;
pub mod fixed;
pub mod forest;
pub mod graph;
pub mod judge;
pub mod judge_districts;
pub mod judge_parts;
pub mod judge_path;
pub mod judge_rounds;
pub mod judge_text;
pub mod judge_tree;
pub mod made_districts;
pub mod made_filings;
pub mod made_gates;
pub mod made_many_vans;
pub mod made_questions;
pub mod made_records;
pub mod made_shapes;
pub mod made_surfaces;
pub mod made_trials;
pub mod made_vans;
pub mod made_within;
pub mod made_wrong_lists;
pub mod made_wrong_trials;
pub mod made_wrong_vans;
pub mod optimum;
pub mod question;
pub mod random;
pub mod replies;
pub mod rivals;
pub mod rooted;
pub mod rounds;
pub mod split;
pub mod surface;
pub mod trial;
pub mod unrooted;
pub mod vans;
pub mod walk;
pub mod within;
pub mod written;
