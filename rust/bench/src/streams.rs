//! A stream's calls, in nanoseconds a call, each beside the message call of
//! the same bytes in the same run. All are in mode 0 with text on both
//! screens, as the lines of `main.rs` are:
//!
//! - `piece-N`: text in pieces of N bytes, so that nothing waits; beside it
//!   the same text in messages.
//! - `waiting-N`: a cursor placing, then what a weighing program sends, N bytes
//!   together. The pieces are cut inside the placing, behind 27,61, so that
//!   bytes wait before and after each; the messages in front of it.
//! - `closing`: nothing waits; beside it the empty message.
//! - `closing-209`: 27,209 waits, which closing takes for screen 1; beside it
//!   the message 27,209.
//!
//! A line is `bench NAME ours NS plain NS ratio R message NS ratio R`: the
//! stream's call on both sides and their ratio, then our message call and the
//! ratio of our stream's call to it. After every run all three must have left
//! the same cells, layer and shown screen, and the two streams the same
//! settings.

use crate::input::{Case, Kind};
use crate::side::{Board, Calls, Plain, Side, Takes};
use crate::{enough_rounds, timed, RUNS};
use std::time::Duration;

const PLACING: [u8; 2] = [27, 61];
const SELECTION: [u8; 2] = [27, 209];

/// One line of the output.
struct Line {
    name: String,
    call: Call,
    /// what waits before the first call
    waiting: Vec<u8>,
    parts: Vec<Vec<u8>>,
    /// the same bytes, cut between items
    messages: Vec<Vec<u8>>,
}

#[derive(Clone, Copy)]
enum Call {
    Piece,
    /// of the stream as it stands before the first call, over and over
    Closing,
}

fn all_lines() -> Vec<Line> {
    let mut lines: Vec<Line> = [1, 5, 20].into_iter().map(pieces).collect();
    lines.extend([20, 200].map(waiting));
    lines.push(closing("closing", &[]));
    lines.push(closing("closing-209", &SELECTION));
    lines
}

fn pieces(size: usize) -> Line {
    let text = case(Kind::Text, size).messages();
    let name = format!("piece-{size}");
    Line { name, call: Call::Piece, waiting: Vec::new(), parts: text.clone(), messages: text }
}

fn waiting(size: usize) -> Line {
    // lines 1 to 24 and columns 1 to 30, as in the mix
    let places = (0..).map(|at: u8| [32 + at % 24, 32 + at % 30]);
    let rests = case(Kind::Mixed, size - 4).messages().into_iter().zip(places);
    let rests: Vec<Vec<u8>> = rests.map(|(mixed, place)| [&place, &mixed[..]].concat()).collect();
    Line {
        name: format!("waiting-{size}"),
        call: Call::Piece,
        waiting: PLACING.to_vec(),
        parts: rests.iter().map(|rest| [rest, &PLACING[..]].concat()).collect(),
        messages: rests.iter().map(|rest| [&PLACING[..], rest].concat()).collect(),
    }
}

fn closing(name: &str, waiting: &[u8]) -> Line {
    let (parts, messages) = (vec![Vec::new(); 64], vec![waiting.to_vec(); 64]);
    Line { name: name.to_string(), call: Call::Closing, waiting: waiting.to_vec(), parts, messages }
}

fn case(kind: Kind, size: usize) -> Case {
    Case { kind, size, mode: 0 }
}

/// A side at the start, nothing waiting.
fn start<C: Calls>() -> Side<C> {
    Side::start(&case(Kind::Text, 1).start())
}

/// A side that takes a part of a stream in place of a message.
struct Streaming<C: Calls> {
    side: Side<C>,
    call: Call,
    /// as they stand before the first call
    given: C::Settings,
}

impl<C: Calls> Streaming<C> {
    fn start(line: &Line) -> Streaming<C> {
        let mut side = start::<C>();
        side.piece(&line.waiting);
        Streaming { given: side.settings, side, call: line.call }
    }
}

impl<C: Calls> Takes for Streaming<C> {
    fn message(&mut self, part: &[u8]) {
        match self.call {
            Call::Piece => self.side.piece(part),
            Call::Closing => {
                C::wait_again(&mut self.side.settings, &self.given);
                self.side.closing();
            }
        }
    }

    fn shown(&self) -> &[u8] {
        self.side.shown()
    }
}

pub fn bench(word: &str) {
    for line in all_lines().iter().filter(|line| line.name.contains(word)) {
        let [ours, plain, message] = measure(line);
        let (beside, to_message) = (ours / plain, ours / message);
        println!(
            "bench {} ours {ours:.1} plain {plain:.1} ratio {beside:.2} message {message:.1} ratio {to_message:.2}",
            line.name
        );
    }
}

/// The best time a call in nanoseconds: ours, plain, and our message.
fn measure(line: &Line) -> [f64; 3] {
    let rounds = enough_rounds(|| Streaming::<Plain>::start(line), &line.parts);
    let mut best = [Duration::MAX; 3];
    for run in 0..RUNS {
        let times = once(line, rounds, run);
        best = [0, 1, 2].map(|side| best[side].min(times[side]));
    }
    best.map(|time| time.as_nanos() as f64 / (rounds * line.parts.len()) as f64)
}

/// One run of all three; who comes first changes from run to run.
fn once(line: &Line, rounds: usize, run: usize) -> [Duration; 3] {
    let ours = || timed(Streaming::<Board>::start(line), &line.parts, rounds);
    let plain = || timed(Streaming::<Plain>::start(line), &line.parts, rounds);
    let message = || timed(start::<Board>(), &line.messages, rounds);
    let (left, right, beside);
    match run % 3 {
        0 => (left, right, beside) = (ours(), plain(), message()),
        1 => (right, beside, left) = (plain(), message(), ours()),
        _ => (beside, left, right) = (message(), ours(), plain()),
    }
    let same = left.1.side.same_as(&right.1.side) && left.1.side.same_stores(&beside.1);
    assert!(same, "{}: the sides differ", line.name);
    [left.0, right.0, beside.0]
}

#[cfg(test)]
mod tests {
    use super::*;

    #[test]
    fn streams_and_messages_leave_the_same() {
        for line in all_lines() {
            once(&line, 1, 0);
        }
    }
}
