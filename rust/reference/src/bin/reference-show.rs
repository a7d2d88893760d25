//! Program "show": reads a message from standard input and prints the answer
//! and the rows.

use std::io::{Read, Write};

fn main() -> std::io::Result<()> {
    let mut bytes = Vec::new();
    std::io::stdin().read_to_end(&mut bytes)?;
    std::io::stdout().write_all(reference::text::show(&bytes).as_bytes())
}
