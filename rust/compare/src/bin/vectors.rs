//! `vectors`: the expected text of the named cases.
//! `vectors --recording`: the cases themselves, as bytes.
//! `vectors --play`: plays a recording from standard input.
//! The form of both stands at the top of `vectors.rs` in the library.
//!
//! `--every N` after the first two takes the first case of the list and then
//! each Nth, of those with messages alone: `crates/vectors/stdin` and `stdout` are
//! those of `--every 3`.

use compare::vectors::{cases, play, recording, Case};
use std::io::{Read, Write};
use std::process::ExitCode;

fn main() -> ExitCode {
    let words: Vec<String> = std::env::args().skip(1).collect();
    let words: Vec<&str> = words.iter().map(String::as_str).collect();
    let bytes = match words[..] {
        ["--play"] => played_input(),
        ["--recording", ref rest @ ..] => chosen(rest).map(|cases| recording(&cases)),
        ref rest => chosen(rest).and_then(|cases| play(&recording(&cases))).map(String::into_bytes),
    };
    let written = bytes.map(|bytes| std::io::stdout().write_all(&bytes));
    match written {
        Some(Ok(())) => ExitCode::SUCCESS,
        _ => {
            eprintln!("usage: vectors [--recording] [--every N] | vectors --play; or a bad recording");
            ExitCode::FAILURE
        }
    }
}

/// The cases that `--every N` takes; all without it.
fn chosen(words: &[&str]) -> Option<Vec<Case>> {
    match words {
        [] => Some(cases()),
        ["--every", number] => {
            let step = number.parse().ok().filter(|&step| step > 0)?;
            Some(cases().into_iter().filter(Case::messages_alone).step_by(step).collect())
        }
        _ => None,
    }
}

fn played_input() -> Option<Vec<u8>> {
    let mut given = Vec::new();
    std::io::stdin().read_to_end(&mut given).ok()?;
    play(&given).map(String::into_bytes)
}
