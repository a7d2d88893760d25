//! Program "replay": reads a recording from standard input, plays it from an
//! opening, and prints a line a record and what stands.

use std::io::{Read, Write};

fn main() -> std::io::Result<()> {
    let mut recording = Vec::new();
    std::io::stdin().read_to_end(&mut recording)?;
    std::io::stdout().write_all(reference::text::replay(&recording).as_bytes())
}
