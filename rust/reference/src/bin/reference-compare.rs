//! Program "compare": prints how two shown screens differ, from two files
//! named as arguments.

use reference::differences::text;
use std::fs::File;
use std::io::{Read, Write};

/// The file's bytes; one more than a screen has is enough to refuse it.
fn bytes_of(name: Option<std::ffi::OsString>) -> Option<Vec<u8>> {
    let mut bytes = Vec::new();
    File::open(name?).ok()?.take(641).read_to_end(&mut bytes).ok()?;
    Some(bytes)
}

fn main() -> std::io::Result<()> {
    let mut names = std::env::args_os().skip(1);
    let (mut first, second) = (bytes_of(names.next()), bytes_of(names.next()));
    // three files are not two
    if names.next().is_some() {
        first = None;
    }
    std::io::stdout().write_all(text(first.as_deref(), second.as_deref()).as_bytes())
}
