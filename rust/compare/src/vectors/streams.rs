//! Document 02, P1: pieces and closings.

use super::refusals::WHOLE;
use super::Cases;
use crate::generate::Kind;
use reference::text::REPLAY_ROOM;

impl Cases {
    /// These pieces, then a closing, with room for two copies each.
    fn stream(&mut self, name: impl Into<String>, pieces: &[&[u8]]) {
        let mut calls: Vec<_> = pieces.iter().map(|&piece| piece_of(piece)).collect();
        calls.push(CLOSE);
        self.add_calls(name, &calls);
    }
}

const CLOSE: (Kind, usize, &[u8]) = (Kind::Closing, REPLAY_ROOM, &[]);

fn piece_of(bytes: &[u8]) -> (Kind, usize, &[u8]) {
    (Kind::Piece, REPLAY_ROOM, bytes)
}

fn message(bytes: &[u8]) -> (Kind, usize, &[u8]) {
    (Kind::Message, REPLAY_ROOM, bytes)
}

pub fn cases(cases: &mut Cases) {
    examples(cases);
    between(cases);
    cuts(cases);
}

/// The request's own examples.
fn examples(cases: &mut Cases) {
    cases.stream("stream-escape-escape", &[&[65, 27], &[27, 66]]);
    let five = [65, 65, 65, 65, 65, 27, 209];
    cases.add_calls("stream-209-waits", &[piece_of(&five), message(&[65]), piece_of(&[27]), CLOSE]);
    let second = message(b"one\x1b\xd1\x01two");
    cases.add_calls("stream-209-closed", &[second, piece_of(&[27, 209]), CLOSE]);
    cases.add_calls("stream-209-finished", &[second, piece_of(&[27, 209]), piece_of(&[1, 65]), CLOSE]);
    cases.stream("stream-offset-4096", &[&[65; 4096], &[27, 61], &[99, 32]]);
    let scarce = [(Kind::Piece, 656, &[27, 80, 27][..]), (Kind::Piece, 655, &[80])];
    cases.add_calls("stream-13-in-the-second-piece", &[scarce[0], scarce[1], CLOSE]);
    let around = [piece_of(&[65]), message(&[66, 27]), piece_of(&[27]), CLOSE];
    cases.add_calls("stream-message-between", &around);
    cases.stream("stream-pattern-in-two", &[&[27, 224, 224, 1, 2, 3], &[4, 5, 6, 7, 8, 27, 99]]);
    cases.stream("stream-pattern-byte-by-byte", &[&[27], &[224], &[224], &[1, 2, 3], &[4], &[5, 6, 7], &[8]]);
    cases.stream("stream-mode-3", &[&[27, 208], &[3, 65]]);
    cases.stream("stream-mode-9", &[&[27, 208], &[9, 65]]);
    cases.stream("stream-cut-and-bad", &[&[27, 208, 2, 99], &[0, 0, 65]]);
    cases.stream("stream-copies", &[b"one\x1b", b"Ptwo\x1bP", b"\x1b", b"P"]);
}

/// Empty streams and pieces, two streams, and refused calls.
fn between(cases: &mut Cases) {
    cases.stream("stream-without-a-piece", &[]);
    cases.stream("stream-empty-piece", &[&[]]);
    cases.stream("stream-empty-pieces-between", &[&[27], &[], &[61, 40], &[], &[40, 65]]);
    cases.add_calls("stream-closed-twice", &[piece_of(&[65, 27]), CLOSE, CLOSE]);
    let again = [piece_of(&[65, 65, 27]), CLOSE, piece_of(&[27, 27, 66, 27]), CLOSE];
    cases.add_calls("stream-after-a-stream", &again);
    cases.add_calls("stream-message-after", &[piece_of(&[27]), CLOSE, message(&[27, 209, 1, 65])]);
    let refused =
        [piece_of(&[65, 27]), message(&[]), piece_of(&[66; 4097]), message(&[66; 4097]), piece_of(b"*B")];
    cases.add_calls("stream-refused-calls-between", &refused);
    cases.stream("stream-piece-of-4096", &[&[66; 4096], &[10; 4096], b"x"]);
    cases.add_calls("stream-left-open", &[piece_of(b"text\x1b=!")]);
    cases.stream("stream-mode-setting-keeps-it", &[&[65, 27, 208, 1], &[16, 27], &[27, 99]]);
    cases.stream("stream-secret", &[b"\x1b", b"{hidden", b"\x1b", b"}"]);
}

/// Every sequence cut at every length: finished, and closed.
fn cuts(cases: &mut Cases) {
    for sequence in WHOLE {
        let mode = if sequence[1] == 208 { format!("-mode-{}", sequence[2]) } else { String::new() };
        for length in 1..sequence.len() {
            let name = format!("{}{mode}-after-{length}", sequence[1]);
            let (front, rest) = sequence.split_at(length);
            let (front, rest) = ([b"text\r\n", front].concat(), [rest, b"."].concat());
            cases.stream(format!("stream-cut-{name}"), &[&front, &rest]);
            cases.stream(format!("stream-closed-{name}"), &[&front]);
        }
    }
}
