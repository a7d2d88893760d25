//! Document 02, P11: mode 3.

use super::refusals::WHOLE;
use super::Cases;
use crate::generate::Kind;
use reference::settings::DOTS;

const MODE_3: &[u8] = &[27, 208, 3];
/// From corner to corner.
const CORNERS: &[u8] = &[27, 198, 0, 0, 0, 0, 1, 223, 0, 63, 255, 255, 2];

impl Cases {
    /// A message that sets mode 3, and these bytes in another; both with room
    /// for the dots.
    fn in_mode_3(&mut self, name: impl Into<String>, bytes: &[u8]) {
        self.add_with_room(name, &[(DOTS, MODE_3), (DOTS, bytes)]);
    }

    /// The same over a line from corner to corner and some text, with a copy of
    /// what is left.
    fn over_dots(&mut self, name: impl Into<String>, bytes: &[u8]) {
        let before = [MODE_3, CORNERS, b"text\x1b\xd2\x02\x02*"].concat();
        self.add_with_room(name, &[(DOTS, &before), (DOTS, bytes), (DOTS, &[27, 80])]);
    }
}

fn message(bytes: &[u8]) -> (Kind, usize, &[u8]) {
    (Kind::Message, DOTS, bytes)
}

pub fn cases(cases: &mut Cases) {
    examples(cases);
    lines(cases);
    refused(cases);
    idle(cases);
    kept_and_cleared(cases);
    copies(cases);
    streams(cases);
}

/// The request's own examples, by number.
fn examples(cases: &mut Cases) {
    cases.in_mode_3("dots-1-first", &[27, 199, 1, 0, 0, 0]);
    cases.in_mode_3("dots-1-last", &[27, 199, 1, 63, 1, 223]);
    cases.in_mode_3("dots-1-horizontal-480", &[27, 199, 1, 63, 1, 224]);
    cases.in_mode_3("dots-1-all-bad", &[27, 199, 2, 64, 2, 0]);
    cases.in_mode_3("dots-1-vertical-64", &[27, 199, 1, 64, 2, 0]);
    cases.in_mode_3("dots-2-manual", &[27, 198, 1, 144, 0, 18, 0, 18, 0, 18, 170, 170, 2]);
    cases.in_mode_3("dots-3-half-way", &[27, 198, 0, 0, 0, 0, 0, 2, 0, 1, 255, 255, 2]);
    cases.in_mode_3("dots-3-half-way-back", &[27, 198, 0, 2, 0, 1, 0, 0, 0, 0, 255, 255, 2]);
    cases.in_mode_3("dots-4-one-inverted", &[27, 198, 0, 5, 0, 5, 0, 5, 0, 5, 128, 0, 3]);
    cases.in_mode_3("dots-4-one-masked", &[27, 198, 0, 5, 0, 5, 0, 5, 0, 5, 127, 255, 3]);
    cases.in_mode_3("dots-5-second-byte-of-the-mask", &[27, 198, 0, 0, 0, 0, 0, 0, 0, 9, 0, 128, 2]);
    cases.in_mode_3("dots-6-vertical-high-byte", &[27, 198, 0, 0, 1, 0, 0, 0, 0, 0, 255, 255, 2]);
    cases.in_mode_3("dots-6-function-0", &[27, 198, 0, 0, 0, 0, 0, 0, 0, 0, 255, 255, 0]);
    cases.in_mode_3("dots-7-idle-selection", &[27, 210, 1, 1, 90, 27, 209, 7]);
    cases.add_with_room("dots-8-room-3839", &[(3839, &[MODE_3, CORNERS, b"\x1bP"].concat())]);
    cases.add_with_room("dots-8-room-3840", &[(3840, &[MODE_3, CORNERS, b"text\x1b{\x1bP"].concat())]);
    cases.over_dots("dots-9-back-to-mode-0", &[27, 208, 0, 24, 24]);
    cases.add("dots-10-42-in-mode-0", &[CORNERS, b"text\x1b*"]);
    cases.over_dots("dots-12-42-in-mode-3", b"\x1b*");
}

/// Every direction from the middle and back, by each function and some masks.
fn lines(cases: &mut Cases) {
    let ends: [(&str, [u8; 2], u8); 16] = [
        ("right", [1, 44], 32),
        ("left", [0, 100], 32),
        ("down", [0, 240], 63),
        ("up", [0, 240], 0),
        ("right-and-down-equal", [1, 15], 63),
        ("left-and-up-equal", [0, 209], 1),
        ("right-and-down-lying", [1, 44], 47),
        ("right-and-down-standing", [0, 251], 60),
        ("right-and-up-lying", [1, 44], 3),
        ("right-and-up-standing", [0, 250], 2),
        ("left-and-down-lying", [0, 7], 50),
        ("left-and-down-standing", [0, 233], 63),
        ("left-and-up-lying", [0, 8], 0),
        ("left-and-up-standing", [0, 227], 1),
        ("to-the-first-dot", [0, 0], 0),
        ("to-the-last-dot", [1, 223], 63),
    ];
    let middle = ([0, 240], 32);
    for (name, horizontal, vertical) in ends {
        let line = |from: ([u8; 2], u8), to: ([u8; 2], u8), mask: [u8; 2], function: u8| {
            let ((start, from), (end, to)) = (from, to);
            [27, 198, start[0], start[1], 0, from, end[0], end[1], 0, to, mask[0], mask[1], function]
        };
        let end = (horizontal, vertical);
        cases.in_mode_3(format!("line-{name}"), &line(middle, end, [255, 255], 2));
        cases.in_mode_3(format!("line-{name}-back"), &line(end, middle, [255, 255], 2));
        cases.over_dots(format!("line-{name}-inverted"), &line(middle, end, [240, 129], 3));
        cases.over_dots(format!("line-{name}-off"), &line(end, middle, [85, 170], 1));
    }
    let points: Vec<u8> = (0..64).flat_map(|v| [27, 199, 1, v, v & 1, 7 * (v & 31)]).collect();
    cases.in_mode_3("points-on-every-row", &points);
    cases.over_dots("points-off", &[27, 199, 0, 0, 0, 0, 27, 199, 0, 63, 1, 223, 27, 199, 0, 9, 0, 9]);
}

/// Each bad parameter, alone and with later ones, behind something drawn.
fn refused(cases: &mut Cases) {
    let good = [0, 10, 0, 10, 0, 20, 0, 20, 255, 255, 2];
    let bad: [(usize, &[u8]); 12] = [
        (0, &[1, 224]),
        (0, &[2, 0]),
        (0, &[255, 255]),
        (2, &[0, 64]),
        (2, &[1, 0]),
        (4, &[1, 224]),
        (6, &[0, 64]),
        (6, &[1, 0]),
        (10, &[0]),
        (10, &[4]),
        (10, &[255]),
        (2, &[0, 64, 9, 9, 9, 9, 0, 0, 9]),
    ];
    for (at, bytes) in bad {
        let mut parameters = good;
        parameters[at..at + bytes.len()].copy_from_slice(bytes);
        let words: Vec<String> = bytes.iter().map(u8::to_string).collect();
        let name = format!("{}-{}", at + 1, words.join("-"));
        let sequence = [&[27, 198], &parameters[..], b"."].concat();
        cases.over_dots(format!("198-bad-{name}"), &sequence);
        // in another mode it is not judged
        cases.add(format!("198-in-mode-0-{name}"), &[&sequence]);
    }
    for p in [[2, 0, 0, 0], [0, 64, 0, 0], [1, 63, 1, 224], [1, 63, 2, 0], [255, 255, 255, 255]] {
        let name = format!("{}-{}-{}-{}", p[0], p[1], p[2], p[3]);
        let sequence = [&[27, 199], &p[..], b"."].concat();
        cases.over_dots(format!("199-bad-{name}"), &sequence);
        cases.add(format!("199-in-mode-0-{name}"), &[&sequence]);
    }
    cases.in_mode_3("dots-mode-byte-4", &[27, 208, 4, 65]);
    cases.in_mode_3("dots-modes-3-and-9", &[65, 27, 208, 3, 66, 27, 208, 9]);
}

/// What does nothing in mode 3, with parameters good and wild; and what acts.
fn idle(cases: &mut Cases) {
    for second in [148, 149, 209, 211, 214] {
        for parameter in [0, 1, 2, 9, 27, 255] {
            cases.over_dots(format!("mode-3-{second}-{parameter}"), &[27, second, parameter, 46]);
        }
        cases.over_dots(format!("mode-3-{second}-cut"), &[27, second]);
    }
    for second in [150, 151, 212, 213, 215, 50, 51, 123, 125, 160, 176, 246, 84, 89] {
        cases.over_dots(format!("mode-3-{second}"), &[27, second, 46]);
    }
    let acts: [(&str, &[u8]); 12] = [
        ("61", &[27, 61, 39, 111]),
        ("61-line-9", &[27, 61, 40, 32]),
        ("61-column-81", &[27, 61, 32, 112]),
        ("144-all", &[27, 144, 0, 8]),
        ("144-nine", &[27, 144, 0, 9]),
        ("145-inside", &[27, 145, 1, 3]),
        ("210", &[27, 210, 8, 80, 33]),
        ("37", &[27, 37, 5]),
        ("lift", &[10; 9]),
        ("lift-by-printing", &[27, 61, 39, 111, 65, 66]),
        ("224", &[27, 224, 254, 1, 2, 3, 4, 5, 6, 7, 8]),
        ("text", b"one\rtwo\x08\nthree"),
    ];
    for (name, bytes) in acts {
        cases.over_dots(format!("mode-3-{name}"), bytes);
    }
    for sequence in WHOLE {
        for length in 2..sequence.len() {
            let mode = if sequence[1] == 208 { format!("-mode-{}", sequence[2]) } else { String::new() };
            let name = format!("mode-3-cut-{}{mode}-after-{length}", sequence[1]);
            cases.over_dots(name, &sequence[..length]);
        }
    }
}

fn kept_and_cleared(cases: &mut Cases) {
    cases.over_dots("dots-cleared-by-12", &[12]);
    cases.over_dots("dots-cleared-by-mode-3", MODE_3);
    cases.over_dots("dots-cleared-by-mode-1", &[27, 208, 1, 16]);
    cases.over_dots("dots-cleared-by-mode-2", &[27, 208, 2, 8, 39, 35]);
    cases.over_dots("dots-kept-by-a-refused-208", &[27, 208, 0, 7, 24]);
    cases.over_dots("dots-kept-by-secret", b"\x1b{more\x1b}");
    // what mode 3 leaves behind, and what it does not take over
    let settings = b"\x1b\xd6\x01\x1b\xd3\x00\x1b\x94\x05\x1b\x95\x01\x1b2\x1b{";
    cases.add("mode-3-from-other-settings", &[settings, MODE_3, &[27, 208, 0, 24, 24]]);
    let second = b"\x1b\xd0\x02\x0a\x14#\x1b\xd1\x01text";
    cases.add("mode-3-from-screen-2", &[second, &[MODE_3, b"new"].concat(), &[27, 208, 1, 16]]);
    let opening = |rule| (Kind::Opening(rule), DOTS, &[][..]);
    let drawn = [MODE_3, CORNERS].concat();
    cases.add_calls("dots-cleared-by-an-opening", &[message(&drawn), opening(2), message(&[27, 80])]);
    cases.add_calls("dots-kept-by-a-refused-opening", &[message(&drawn), opening(3), message(MODE_3)]);
    let key = (Kind::KeyText(4), DOTS, &b"ABCDEFGH"[..]);
    cases.add_calls("mode-3-key-text-not-seen", &[message(&drawn), key, message(&[27, 211, 0])]);
    let late = [27, 61, 39, 111, 65];
    cases.add_calls("mode-3-late-wrap", &[opening(2), message(MODE_3), message(&late), message(b"BC")]);
}

fn copies(cases: &mut Cases) {
    for room in [0, 655, 656, 3839, 3840, 3841, 4000] {
        let two = [MODE_3, CORNERS, b"\x1bP\x1b*\x1bP"].concat();
        cases.add_with_room(format!("dots-copies-in-room-{room}"), &[(room, &two)]);
    }
    let text = [b"text\x1bP", MODE_3, CORNERS, b"\x1bP"].concat();
    cases.add_with_room("dots-copy-behind-a-copy-of-text", &[(4000, &text)]);
    let both = [
        (Kind::Piece, 7680, &text[..]),
        (Kind::Piece, 7679, b"\x1bP\x1bP"),
        (Kind::Piece, 7680, b"\x1bP\x1bP"),
    ];
    cases.add_calls("dots-copies-of-pieces", &both);
}

/// A line of dots cut after every byte.
fn streams(cases: &mut Cases) {
    for length in 1..CORNERS.len() {
        let (front, rest) = CORNERS.split_at(length);
        let (front, rest) = ([MODE_3, front].concat(), [rest, b"ok"].concat());
        let calls = [(Kind::Piece, DOTS, &front[..]), (Kind::Piece, DOTS, &rest), (Kind::Closing, 0, &[])];
        cases.add_calls(format!("stream-of-dots-cut-after-{length}"), &calls);
    }
    let mode =
        [(Kind::Piece, DOTS, &[27, 208][..]), (Kind::Piece, DOTS, &[3, 27, 209]), (Kind::Closing, 0, &[])];
    cases.add_calls("stream-of-dots-mode-cut", &mode);
}
