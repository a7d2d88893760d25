//! Program "glass": reads a stream from standard input, 256 bytes at a time as
//! from a file, and writes what an ordinary terminal shows the glass by.

use reference::glass::{glass, PART};
use std::io::{Read, Write};

fn main() -> std::io::Result<()> {
    let mut stream = Vec::new();
    std::io::stdin().read_to_end(&mut stream)?;
    std::io::stdout().write_all(glass(stream.chunks(PART)).as_bytes())
}
