//! What is asked and what is answered.

/// The two kinds of question.
#[derive(Clone, Copy, Debug, PartialEq, Eq)]
pub enum Kind {
    /// A "yard" question: the roots are the vertices of a list or, without one, 0 to k - 1.
    Rooted,
    /// A "roving" question: there are no roots.
    Unrooted,
}

/// The answer to a trial or a best-limit question.
#[derive(Clone, Debug, PartialEq, Eq)]
pub enum Answer {
    /// A cover was found at this limit and written; its heaviest tree has this weight.
    Cover { limit: u64, heaviest: u64 },
    /// Too low: this is the lowest vertex joined to no root.
    Stop(usize),
    /// Too low: this many parts were written, and this many roots are near any of them.
    Parts { parts: usize, roots: usize },
    /// Too low: this many trees are needed.
    Needs(u64),
    /// No cover of the kind exists at any limit.
    NoCover,
    /// The question is refused with this number.
    Refused(u16),
}

/// The least length of a lent buffer in bytes.
pub const BUFFER: usize = 32_708;

/// The largest limit that may be asked for.
pub const LIMIT: u64 = 2_048_000_000;

/// The tree count k of a question, or refusal 21.
pub fn tree_count(k: u64) -> Result<usize, u16> {
    if !(1..=32).contains(&k) {
        return Err(21);
    }
    Ok(k as usize)
}
