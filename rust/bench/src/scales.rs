//! What scales send (document 02, P12), in nanoseconds a message: our short call and our
//! message call against "a plain Rust program, written for this, that repaints
//! everything" (`repainting`), and against plain Rust made fast (`tuned::message`), which
//! repaints everything too. In every mode with text on both screens and an empty layer:
//!
//! - `scale-letters-N`: N letters in their line, from line 3, column 5
//! - `scale-return-N`: a carriage return and N digits, from there
//! - `scale-placing-N`: 27,61,l,c and N digits, from there; l 1 to 8, c 1 to 30
//! - `scale-end-5`: 5 letters over a line's end, of which 3 are the last of line 3
//! - `scale-codes-6`: 3 digits, one back, a digit, one line down, 2 digits, from line 3,
//!   column 5
//!
//! Nothing lifts and no window moves. Each of the 64 messages finds the cursor where the
//! first one does: on every side it is put back before the call. A line is `bench NAME short
//! NS message NS short/message R repainting NS short/repainting R message/repainting R
//! tuned NS short/tuned R message/tuned R`. The four take turns in
//! one process, who comes first changes from run to run, the time is the median of the
//! runs, and after every run all show the same and have left the same cells, layer and
//! cursor.

use crate::input::{Case, Kind};
use crate::side::{Board, Calls, Plain, Side, Takes};
use crate::{enough_rounds, timed, RUNS};
use repainting::{Answer, Terminal};
use std::time::Duration;

fn all_cases() -> Vec<Case> {
    let letters = [1, 5, 10, 20].map(|size| (Kind::Letters, size));
    let returns = [1, 6, 12].map(|size| (Kind::Return, size));
    let placings = [1, 6, 12].map(|size| (Kind::Placing, size));
    let others = [(Kind::End, 5), (Kind::Codes, 6)];
    let inputs = letters.into_iter().chain(returns).chain(placings).chain(others);
    inputs.flat_map(|(kind, size)| (0..4).map(move |mode| Case { kind, size, mode })).collect()
}

/// A side that takes each message with the cursors of the start.
#[derive(Clone)]
struct Again<C: Calls, const SHORT: bool> {
    side: Side<C>,
    start: C::Settings,
}

impl<C: Calls, const SHORT: bool> Again<C, SHORT> {
    fn start(case: &Case) -> Self {
        let side = Side::start(&case.start());
        Again { start: side.settings, side }
    }
}

impl<C: Calls, const SHORT: bool> Takes for Again<C, SHORT> {
    fn message(&mut self, message: &[u8]) {
        C::put_back(&mut self.side.settings, &self.start);
        if SHORT {
            self.side.message_short(message);
        } else {
            self.side.message(message);
        }
    }

    fn shown(&self) -> &[u8] {
        self.side.shown()
    }
}

/// The plain program, whose cursor is put back before each message.
#[derive(Clone)]
struct Repainting {
    terminal: Terminal,
    cursor: (usize, usize),
    clean: bool,
}

impl Repainting {
    fn start(case: &Case) -> Repainting {
        let messages = case.start();
        // 27, 208, then the selections, the text and the cursor placing
        let mut terminal = Terminal::new(&messages[0][2..]);
        for message in &messages[1..] {
            match message[..] {
                [27, 209, _] if case.mode == 3 => {}
                [27, 209, screen] => terminal.selected = screen.into(),
                _ => assert!(is_clean(&terminal.message(message)), "{message:?}"),
            }
        }
        Repainting { terminal, cursor: case.cursor(), clean: true }
    }

    /// Whether it has shown and left what ours has.
    fn same_as(&self, ours: &Side<Board>) -> bool {
        let Terminal { screens, cells, layer, .. } = &self.terminal;
        let places = ours.settings.places.map(|place| [place.line, place.column, place.top].map(usize::from));
        self.clean
            && self.shown() == ours.shown()
            && *cells == ours.stores.cells
            && *layer == ours.stores.layer
            && screens.map(|screen| [screen.line, screen.column, screen.top]) == places
    }
}

impl Takes for Repainting {
    fn message(&mut self, message: &[u8]) {
        let screen = &mut self.terminal.screens[0];
        (screen.line, screen.column) = self.cursor;
        self.clean &= is_clean(&self.terminal.message(message));
    }

    fn shown(&self) -> &[u8] {
        &self.terminal.shown
    }
}

fn is_clean(answer: &Answer) -> bool {
    answer.number == 0 && answer.refused == 0
}

pub fn bench(word: &str) {
    for case in all_cases().iter().filter(|case| case.name().contains(word)) {
        let [short, message, repainting, tuned] = measure(case);
        print!("bench {} short {short:.1} message {message:.1}", case.name());
        print!(" short/message {:.2}", short / message);
        for (name, time) in [("repainting", repainting), ("tuned", tuned)] {
            print!(" {name} {time:.1} short/{name} {:.2} message/{name} {:.2}", short / time, message / time);
        }
        println!();
    }
}

/// The median time a message in nanoseconds: our short call, our message call, the program
/// that repaints everything, the one made fast.
fn measure(case: &Case) -> [f64; 4] {
    let messages = case.messages();
    let rounds = enough_rounds(|| Again::<Plain, false>::start(case), &messages);
    let runs: Vec<_> = (0..RUNS).map(|run| once(case, &messages, rounds, run)).collect();
    [0, 1, 2, 3].map(|side| {
        let mut times: Vec<_> = runs.iter().map(|times| times[side]).collect();
        times.sort();
        times[RUNS / 2].as_nanos() as f64 / (rounds * messages.len()) as f64
    })
}

/// One run of all four, each from the same start.
fn once(case: &Case, messages: &[Vec<u8>], rounds: usize, run: usize) -> [Duration; 4] {
    let mut short = Again::<Board, true>::start(case);
    let mut message = Again::<Board, false>::start(case);
    let mut repainting = Repainting::start(case);
    let mut tuned = Again::<Plain, false>::start(case);
    let mut times = [Duration::ZERO; 4];
    for side in (0..4).map(|turn| (turn + run) % 4) {
        times[side] = match side {
            0 => run_of(&mut short, messages, rounds),
            1 => run_of(&mut message, messages, rounds),
            2 => run_of(&mut repainting, messages, rounds),
            _ => run_of(&mut tuned, messages, rounds),
        };
    }
    let same = short.side.same_as(&message.side) && message.side.same_as(&tuned.side);
    assert!(same && repainting.same_as(&message.side), "{}: the sides differ", case.name());
    times
}

/// The time of a run of a side, which stays as it left it.
fn run_of<T: Takes + Clone>(side: &mut T, messages: &[Vec<u8>], rounds: usize) -> Duration {
    let (time, left) = timed(side.clone(), messages, rounds);
    *side = left;
    time
}

#[cfg(test)]
mod tests {
    use super::*;
    use crate::side::Stores;

    #[test]
    fn the_four_show_and_leave_the_same() {
        for case in all_cases() {
            once(&case, &case.messages(), 1, 0);
        }
    }

    #[test]
    fn the_answers_are_the_same() {
        for case in all_cases() {
            let mut ours = Again::<Board, false>::start(&case).side;
            let mut repainting = Repainting::start(&case).terminal;
            for message in case.messages() {
                let Side { settings, stores, .. } = &mut ours;
                let Stores { cells, layer, shown, dots } = stores;
                let answer = px8::message(settings, &message, cells, layer, shown, dots, &mut []);
                let expected = Answer {
                    number: answer.number,
                    taken: answer.taken as usize,
                    accepted: answer.accepted as usize,
                    refused: answer.refused as usize,
                    first: answer.first,
                    offset: answer.offset as usize,
                    parameter: answer.parameter,
                };
                assert_eq!(repainting.message(&message), expected, "{}", case.name());
                assert_eq!(repainting.shown, *shown, "{}", case.name());
            }
        }
    }
}
