//! Program "lengths": prints the length of every sequence, a line each.

use std::io::Write;

fn main() -> std::io::Result<()> {
    std::io::stdout().write_all(reference::lengths::lengths().as_bytes())
}
