//! Program "picture": reads a recording from standard input, plays it as "replay"
//! does, and writes what the glass then shows as an image.

use std::io::{Read, Write};

fn main() -> std::io::Result<()> {
    let mut recording = Vec::new();
    std::io::stdin().read_to_end(&mut recording)?;
    std::io::stdout().write_all(&reference::text::image(&recording))
}
