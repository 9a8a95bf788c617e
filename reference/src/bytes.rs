//! Unsigned fields of two and four bytes, lowest byte first.

/// Reads the two-byte field at a place.
pub fn two(bytes: &[u8], at: usize) -> usize {
    usize::from(bytes[at]) + 256 * usize::from(bytes[at + 1])
}

/// Reads the four-byte field at a place.
pub fn four(bytes: &[u8], at: usize) -> u64 {
    two(bytes, at) as u64 + 65_536 * two(bytes, at + 2) as u64
}

/// Appends a two-byte field; the value must be below 65,536.
pub fn put_two(out: &mut Vec<u8>, value: usize) {
    assert!(value < 65_536, "a two-byte field cannot hold {value}");
    out.push((value % 256) as u8);
    out.push((value / 256) as u8);
}

/// Appends a four-byte field; the value must be below two to the power 32.
pub fn put_four(out: &mut Vec<u8>, value: u64) {
    put_two(out, (value % 65_536) as usize);
    put_two(out, (value / 65_536) as usize);
}
