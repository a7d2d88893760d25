//! Short messages (document 02, P12), in nanoseconds a message, in every mode with text
//! on both screens:
//!
//! - `short-N`: N printed bytes of a text that goes on from message to message, so that
//!   it wraps, moves the window and lifts as it comes, and then all is painted
//! - `short-weight-N`: a carriage return and N digits, inside one line
//!
//! A line is `bench NAME ours NS message NS ratio R repainting NS ratio R message R plain
//! NS ratio R`: our short call; our message call on the same bytes, and the ratio of the
//! short call to it; plain Rust made fast that repaints all 640 places after each message
//! (`tuned::message`; the program written for that is measured in `scales`), and the ratios
//! of our short call and of our message call to it; plain Rust that paints less too
//! (`tuned::message_short`), and the ratio of our short call to that. The four take turns in
//! one process, who comes first changes from run to run, and after every run all have left
//! the same settings and stores.

use crate::input::{Case, Kind};
use crate::side::{Board, Calls, Plain, Side, Takes};
use crate::{enough_rounds, timed, RUNS};
use std::time::Duration;

fn all_cases() -> Vec<Case> {
    let kinds = [Kind::Short, Kind::Weight].into_iter();
    let sizes = kinds.flat_map(|kind| [1, 5, 20].map(|size| (kind, size)));
    sizes.flat_map(|(kind, size)| (0..4).map(move |mode| Case { kind, size, mode })).collect()
}

/// A side that takes a short message in place of a message.
#[derive(Clone)]
struct Short<C: Calls>(Side<C>);

impl<C: Calls> Takes for Short<C> {
    fn message(&mut self, message: &[u8]) {
        self.0.message_short(message);
    }

    fn shown(&self) -> &[u8] {
        self.0.shown()
    }
}

pub fn bench(word: &str) {
    for case in all_cases().iter().filter(|case| case.name().contains(word)) {
        let [ours, message, repainting, plain] = measure(case);
        println!(
            "bench {} ours {ours:.1} message {message:.1} ratio {:.2} repainting {repainting:.1} ratio {:.2} message {:.2} plain {plain:.1} ratio {:.2}",
            case.name(),
            ours / message,
            ours / repainting,
            message / repainting,
            ours / plain
        );
    }
}

/// The best time a message in nanoseconds: our short call, our message call, the plain
/// one that repaints everything, the plain one that paints less.
fn measure(case: &Case) -> [f64; 4] {
    let messages = case.messages();
    let rounds = enough_rounds(|| Short(Side::<Plain>::start(&case.start())), &messages);
    let mut best = [Duration::MAX; 4];
    for run in 0..RUNS {
        let times = once(case, &messages, rounds, run);
        best = [0, 1, 2, 3].map(|side| best[side].min(times[side]));
    }
    best.map(|time| time.as_nanos() as f64 / (rounds * messages.len()) as f64)
}

/// One run of all four, each from the same start.
fn once(case: &Case, messages: &[Vec<u8>], rounds: usize, run: usize) -> [Duration; 4] {
    let start = case.start();
    let (ours, plain) = (Side::<Board>::start(&start), Side::<Plain>::start(&start));
    let mut times = [Duration::ZERO; 4];
    let (mut boards, mut plains) = (Vec::new(), Vec::new());
    for side in (0..4).map(|turn| (turn + run) % 4) {
        times[side] = match side {
            0 => kept(timed(Short(ours.clone()), messages, rounds), |side| boards.push(side.0)),
            1 => kept(timed(ours.clone(), messages, rounds), |side| boards.push(side)),
            2 => kept(timed(plain.clone(), messages, rounds), |side| plains.push(side)),
            _ => kept(timed(Short(plain.clone()), messages, rounds), |side| plains.push(side.0)),
        };
    }
    let same = boards.iter().all(|board| plains.iter().all(|plain| board.same_as(plain)));
    assert!(same, "{}: the sides differ", case.name());
    times
}

/// The time of a run; what it left is handed on.
fn kept<T>((time, left): (Duration, T), keep: impl FnOnce(T)) -> Duration {
    keep(left);
    time
}

#[cfg(test)]
mod tests {
    use super::*;

    #[test]
    fn short_messages_and_messages_leave_the_same() {
        for case in all_cases() {
            once(&case, &case.messages(), 1, 0);
        }
    }
}
