//! The program `rounds` of the reference: a question on standard input, its answer on standard output.

use std::io::{Read, Write};

fn main() -> std::io::Result<()> {
    let mut input = Vec::new();
    std::io::stdin().read_to_end(&mut input)?;
    std::io::stdout().write_all(reference::rounds::rounds(&input).as_bytes())
}
