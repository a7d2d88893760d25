//! Program "repeats": reads a trace from standard input and prints the codes
//! sent, with the settings that a message in the file named as its argument
//! leaves, or the opening's without one.

use reference::repeats::text;
use reference::text::Session;
use std::io::{Read, Write};

fn main() -> std::io::Result<()> {
    let mut session = Session::open();
    if let Some(name) = std::env::args_os().nth(1) {
        session.play(&std::fs::read(name)?, 0);
    }
    let mut trace = Vec::new();
    std::io::stdin().read_to_end(&mut trace)?;
    std::io::stdout().write_all(text(session.settings, &trace).as_bytes())
}
