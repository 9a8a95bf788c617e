//! The assignment of parts to yards, from the proved static library `matching_c`.
//!
//! Stack: [`assign`] takes up to 4 KiB. Measured, with some room to spare, and not proved.

extern "C" {
    fn matching_assign(
        p: usize,
        y: usize,
        allowed: *const u8,
        allowed_len: usize,
        buffer: *mut u8,
        buffer_len: usize,
    ) -> u32;
}

/// What [`assign`] answers.
#[derive(Clone, Copy, Debug, PartialEq, Eq)]
pub enum Answer {
    /// The buffer's first p bytes are the yard of each part: allowed to it, and no yard for two.
    Assigned,
    /// No assignment exists. The first p bytes are 1 for each part of a set that has fewer allowed yards than parts, and
    /// 0 for the others.
    Deficient,
    /// Number 24: p is above 255, y is outside 1 to 32, the bytes are not p × y, a byte is above 1, or the buffer is
    /// below p bytes. No byte is written.
    Refused,
}

/// Gives each of p parts a yard of its own among y, by p × y bytes, part by part: 1 where a yard is allowed, 0 where not.
/// Any input is answered, so nothing is tested here. Bytes of the buffer past the first p stay as they are.
pub fn assign(p: usize, y: usize, allowed: &[u8], buffer: &mut [u8]) -> Answer {
    // SAFETY: the function asks nothing of the values; each pointer is to a slice of its length, and the two slices are
    // apart, since one of them is borrowed mutably.
    let number = unsafe {
        matching_assign(
            p,
            y,
            allowed.as_ptr(),
            allowed.len(),
            buffer.as_mut_ptr(),
            buffer.len(),
        )
    };
    match number {
        0 => Answer::Assigned,
        1 => Answer::Deficient,
        _ => Answer::Refused,
    }
}
