//! Packs, in nanoseconds a message, each beside the message calls of the same
//! bytes in the same run, in mode 0 with text on both screens:
//!
//! - `pack-1000`: 1,000 messages of 1 to 20 letters
//! - `pack-mixed`: 1,000 messages of 20 bytes of what a weighing program sends
//!
//! A line is `bench NAME ours NS plain NS ratio R message NS ratio R`: the pack call on
//! both sides and their ratio, then our message calls and the ratio of our pack to
//! them. After every run all must have left the same settings and stores.

use crate::input::{Case, Kind};
use crate::side::{Board, Calls, Plain, Side, Takes};
use crate::{timed, RUNS, SHORTEST_RUN};
use std::time::Duration;

const MESSAGES: usize = 1000;

struct Line {
    name: &'static str,
    messages: Vec<Vec<u8>>,
}

fn all_lines() -> [Line; 2] {
    let sizes = (0..MESSAGES).map(|at| 1 + at * 7 % 20);
    let text = Case { kind: Kind::Text, size: 20, mode: 0 }.messages();
    let cut = |(message, size): (&Vec<u8>, usize)| message[..size].to_vec();
    let short = text.iter().cycle().zip(sizes).map(cut).collect();
    let mixed = Case { kind: Kind::Mixed, size: 20, mode: 0 }.messages();
    let mixed = mixed.into_iter().cycle().take(MESSAGES).collect();
    [Line { name: "pack-1000", messages: short }, Line { name: "pack-mixed", messages: mixed }]
}

/// A side that takes a pack in place of a message.
#[derive(Clone)]
struct Packing<C: Calls>(Side<C>);

impl<C: Calls> Takes for Packing<C> {
    fn message(&mut self, pack: &[u8]) {
        self.0.pack(pack);
    }

    fn shown(&self) -> &[u8] {
        self.0.shown()
    }
}

fn start<C: Calls>() -> Side<C> {
    Side::start(&Case { kind: Kind::Text, size: 1, mode: 0 }.start())
}

pub fn bench(word: &str) {
    for line in all_lines().iter().filter(|line| line.name.contains(word)) {
        let [ours, plain, message] = measure(line);
        let (beside, to_message) = (ours / plain, ours / message);
        println!(
            "bench {} ours {ours:.1} plain {plain:.1} ratio {beside:.2} message {message:.1} ratio {to_message:.2}",
            line.name
        );
    }
}

/// The best time a message in nanoseconds: ours, plain, and our messages.
fn measure(line: &Line) -> [f64; 3] {
    let mut rounds = 1;
    // by the messages, which take longest: a long run is seldom left alone
    while once(line, rounds)[2] < SHORTEST_RUN {
        rounds *= 2;
    }
    let mut best = [Duration::MAX; 3];
    for _ in 0..RUNS {
        let times = once(line, rounds);
        best = [0, 1, 2].map(|side| best[side].min(times[side]));
    }
    best.map(|time| time.as_nanos() as f64 / (rounds * MESSAGES) as f64)
}

fn once(line: &Line, rounds: usize) -> [Duration; 3] {
    let pack = [px8::packed(&line.messages)];
    let ours = timed(Packing(start::<Board>()), &pack, rounds);
    let plain = timed(Packing(start::<Plain>()), &pack, rounds);
    let message = timed(start::<Board>(), &line.messages, rounds);
    let same = ours.1 .0.same_as(&plain.1 .0) && ours.1 .0.same_as(&message.1);
    assert!(same, "{}: the sides differ", line.name);
    [ours.0, plain.0, message.0]
}

#[cfg(test)]
mod tests {
    use super::*;

    #[test]
    fn packs_and_messages_leave_the_same() {
        for line in all_lines() {
            once(&line, 1);
        }
    }
}
