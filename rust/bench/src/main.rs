//! `bench [WORD]`: the proved library ("ours") against plain Rust (`tuned`),
//! both built by the profile `speed`, on one machine and the same input. Each line is
//! `bench NAME ours NS plain NS ratio R`, in nanoseconds a message call; with
//! a word, only the names that hold it. Where the machine has libvterm, lines
//! whose input is the same for it end with `libvterm NS`.
//!
//! The input is made from fixed seeds and is the same on every machine:
//!
//! - Modes: 27,208,0,24,24; 27,208,1,24; 27,208,2,24,39,124. So each screen
//!   has 24 lines and 39 columns or more. Then both screens are filled with
//!   text, and screen 1 is selected. Mode 3, 27,208,3, has one screen.
//! - `paint`: the empty message, which paints and does nothing else.
//! - `text`: letters, digits, blanks and stops, with no code. The text goes
//!   on from message to message and so wraps and lifts as it comes.
//! - `lifts`: line feeds alone, with the cursor in the last line from the
//!   start, so that each lifts the screen.
//! - `mixed`: what a weighing program sends, drawn item by item, in a
//!   hundred: 40 a cursor placing (27,61; lines 1 to 24, columns 1 to 30) and
//!   six digits; 15 six digits; 15 a cursor placing and an erased line
//!   (27,84); 10 a window move (27 and 150, 151, 212, 213 or 215); 8 a
//!   selection (27,209); 5 six digits under secret (27,123 and 27,125); 7 a
//!   mark (27,210). An item that does not fit any more is left out, and
//!   digits fill the message; one of 1 byte is a single digit.
//! - `line`: one line of so many dots in mode 3 (27,198), mostly sloping, every
//!   dot acting.
//! - `pieces`: a weight drawn in short runs, 1 to 7 digits at a time, each
//!   behind a carriage return.
//! - Messages have just the length in the name (a line of dots 13 bytes). There are 64 of them for each
//!   line (16 of 4,096 bytes), sent in turn.
//!
//! The lines of two screens side by side say their input in `screens`, those
//! of a stream's pieces and closings in `streams`, those of packs in `packs`, those
//! of short messages in `shorts` and, beside the program that repaints everything, in
//! `scales`, those of traces of keys in `traces`, those of sequences written in
//! `writes`.
//!
//! Settings and answers are lent on both sides; the stores lie behind each other, each
//! aligned to 64 bytes. A run sends them often enough to last some milliseconds. Each run starts
//! from the same settings and stores; within a run nothing is cleared. The
//! sides take turns, and the best of the runs counts for each. At the end of
//! every run ours and the plain side must have left the same settings and
//! stores.
//!
//! libvterm takes the same bytes on a screen of 24 by 80 with the same text,
//! and after every message the eight rows of a window that follows its cursor
//! are read back, all 640 places; they must be those that ours shows. That is
//! `paint`, `text`, `lifts` and `pieces` in mode 0: it knows no sequence of
//! `mixed`, nor modes 1 and 2. Its runs are as long in time, not in messages.

#[path = "../../difference/src/from_board.rs"]
mod from_board;
mod input;
mod packs;
mod scales;
mod screens;
mod shorts;
mod side;
mod streams;
mod traces;
#[cfg_attr(not(vterm), path = "no_vterm.rs")]
mod vterm;
mod writes;

use input::{Case, Kind};
use side::{Board, Plain, Side, Takes};
use std::hint::black_box;
use std::process::ExitCode;
use std::time::{Duration, Instant};
use vterm::Vterm;

const RUNS: usize = 75;
const SIZES: [usize; 4] = [1, 20, 200, 4096];
/// How long a run should last at least.
const SHORTEST_RUN: Duration = Duration::from_millis(3);

fn main() -> ExitCode {
    if cfg!(debug_assertions) {
        eprintln!("bench: build it with --profile speed");
        return ExitCode::from(2);
    }
    eprintln!("bench: libvterm {}", vterm::VERSION);
    let word = std::env::args().nth(1).unwrap_or_default();
    for case in all_cases().iter().filter(|case| case.name().contains(&word)) {
        println!("{}", line(case));
    }
    for (name, [ours, plain]) in screens::lines(&word) {
        println!("bench {name} ours {ours:.1} plain {plain:.1} ratio {:.2}", ours / plain);
    }
    streams::bench(&word);
    packs::bench(&word);
    shorts::bench(&word);
    scales::bench(&word);
    traces::bench(&word);
    writes::bench(&word);
    ExitCode::SUCCESS
}

fn all_cases() -> Vec<Case> {
    let mut cases = Vec::new();
    for mode in 0..3 {
        cases.push(Case { kind: Kind::Paint, size: 0, mode });
        for kind in [Kind::Text, Kind::Mixed, Kind::Lifts] {
            cases.extend(SIZES.map(|size| Case { kind, size, mode }));
        }
        cases.extend([20, 200].map(|size| Case { kind: Kind::Pieces, size, mode }));
    }
    cases.push(Case { kind: Kind::Paint, size: 0, mode: 3 });
    cases.push(Case { kind: Kind::Text, size: 20, mode: 3 });
    cases.extend([1, 16, 480].map(|size| Case { kind: Kind::Line, size, mode: 3 }));
    cases
}

/// A line of the output.
fn line(case: &Case) -> String {
    let Times { ours, plain, vterm } = measure(case);
    let beside = vterm.map_or(String::new(), |time| format!(" libvterm {time:.1}"));
    format!("bench {} ours {ours:.1} plain {plain:.1} ratio {:.2}{beside}", case.name(), ours / plain)
}

/// The best time a message of each side, in nanoseconds.
struct Times {
    ours: f64,
    plain: f64,
    vterm: Option<f64>,
}

fn measure(case: &Case) -> Times {
    let messages = case.messages();
    let ours = Side::<Board>::start(&case.start());
    let plain = Side::<Plain>::start(&case.start());
    let rounds = enough_rounds(|| plain.clone(), &messages);
    let beside = vterm_at(case).map(|_| enough_rounds(|| vterm_at(case).unwrap(), &messages));
    assert!(same_picture(case), "{}: libvterm shows something else", case.name());
    let mut best = [Duration::MAX; 3];
    for run in 0..RUNS {
        // who comes first changes, so that neither always warms the caches
        let (left, right);
        if run % 2 == 0 {
            left = timed(ours.clone(), &messages, rounds);
            right = timed(plain.clone(), &messages, rounds);
        } else {
            right = timed(plain.clone(), &messages, rounds);
            left = timed(ours.clone(), &messages, rounds);
        }
        assert!(left.1.same_as(&right.1), "{}: the two sides differ", case.name());
        best = [best[0].min(left.0), best[1].min(right.0), best[2]];
        if let (Some(rounds), Some(vterm)) = (beside, vterm_at(case)) {
            best[2] = best[2].min(time(vterm, &messages, rounds));
        }
    }
    let each = |time: Duration, rounds: usize| time.as_nanos() as f64 / (rounds * messages.len()) as f64;
    Times {
        ours: each(best[0], rounds),
        plain: each(best[1], rounds),
        vterm: beside.map(|rounds| each(best[2], rounds)),
    }
}

/// libvterm at the start of a line, if it is there and the line is for it.
fn vterm_at(case: &Case) -> Option<Vterm> {
    Vterm::start(&case.start_of_vt100()?)
}

/// Whether libvterm, if it is asked, shows what ours shows after the messages.
/// A letter is sent behind them: a VT100 goes to the next line only when a
/// letter comes for it, and ours when the line is full.
fn same_picture(case: &Case) -> bool {
    let Some(mut vterm) = vterm_at(case) else {
        return true;
    };
    let mut ours = Side::<Board>::start(&case.start());
    for message in case.messages().iter().map(Vec::as_slice).chain([&b"x"[..]]) {
        ours.message(message);
        vterm.message(message);
    }
    ours.shown() == vterm.shown()
}

/// Doubles the rounds until a run is long enough to be measured.
fn enough_rounds<T: Takes>(start: impl Fn() -> T, messages: &[Vec<u8>]) -> usize {
    let mut rounds = 1;
    while time(start(), messages, rounds) < SHORTEST_RUN {
        rounds *= 2;
    }
    rounds
}

fn time<T: Takes>(side: T, messages: &[Vec<u8>], rounds: usize) -> Duration {
    timed(side, messages, rounds).0
}

fn timed<T: Takes>(mut side: T, messages: &[Vec<u8>], rounds: usize) -> (Duration, T) {
    let begin = Instant::now();
    for _ in 0..rounds {
        for message in messages {
            side.message(black_box(message));
        }
    }
    let time = begin.elapsed();
    (time, black_box(side))
}

#[cfg(test)]
mod tests {
    use super::*;

    #[test]
    fn the_sides_leave_the_same() {
        for case in all_cases() {
            let ours = timed(Side::<Board>::start(&case.start()), &case.messages(), 1).1;
            let plain = timed(Side::<Plain>::start(&case.start()), &case.messages(), 1).1;
            assert!(ours.same_as(&plain) && same_picture(&case), "{}", case.name());
        }
    }
}
