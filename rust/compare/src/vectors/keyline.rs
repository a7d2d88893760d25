//! Document 02, P2: the key line.

use super::scenes::SCENES;
use super::Cases;
use crate::generate::Kind;
use reference::text::REPLAY_ROOM;

type Call<'a> = (Kind, usize, &'a [u8]);

fn message(bytes: &[u8]) -> Call<'_> {
    (Kind::Message, REPLAY_ROOM, bytes)
}

fn key(number: usize, text: &[u8]) -> Call<'_> {
    (Kind::KeyText(number), REPLAY_ROOM, text)
}

pub fn cases(cases: &mut Cases) {
    examples(cases);
    texts(cases);
    refused(cases);
    scenes(cases);
}

/// The request's own examples, by number.
fn examples(cases: &mut Cases) {
    cases.add("key-line-1-step", &[&[27, 148, 8, 27, 211, 0], &[27, 148, 8]]);
    cases.add("key-line-2-line-steps", &[&[27, 211, 0, 10, 10, 10, 10, 10, 10, 10, 10, 10, 10]]);
    cases.add("key-line-2-placing", &[&[27, 211, 0, 27, 61, 43, 32]]);
    let second = b"\x1b\xd3\x00\x1b\xd1\x01\x1b=3\x20text\x1b\xd5";
    cases.add("key-line-3-the-other-top", &[second, &[27, 209, 0, 27, 211, 1], &[27, 209, 1]]);
    cases.add("key-line-4-right-half", &[&[27, 211, 0, 27, 208, 1, 16, 27, 61, 39, 32, 65]]);
    let halves = [27, 208, 1, 16, 27, 148, 16, 27, 211, 0];
    cases.add("key-line-4-step-and-top", &[&halves, &[27, 213], &[27, 211, 1]]);
    let mark = [27, 210, 2, 2, 90];
    cases.add("key-line-5-mark-kept", &[&mark, &[27, 211, 1]]);
    cases.add("key-line-5-mark-gone", &[&mark, &[27, 211, 0], &mark, &[27, 211, 0], &[27, 211, 1]]);
    let below = [27, 211, 0, 27, 149, 1, 27, 210, 8, 1, 90, 27, 61, 39, 32, 65];
    cases.add("key-line-6-printed-below", &[&below]);
    cases.add("key-line-7-cursor-left-below", &[&[10, 10, 10, 10, 10, 10, 10, 27, 211, 0], &[13]]);
    let last = [message(&[27, 211, 0]), key(10, b"AAAAAAAA"), message(&[27, 80])];
    cases.add_calls("key-line-8-copied", &last);
    cases.add_calls("key-line-8-not-painted", &last[..2]);
    for (name, limits) in [("mode-0", &[27, 208, 0, 7, 24][..]), ("mode-1", &[27, 208, 1, 15])] {
        cases.add(format!("key-line-9-limits-{name}"), &[&[27, 211, 0], limits]);
    }
}

/// Every key, over and under what else row 8 can show.
fn texts(cases: &mut Cases) {
    let words: Vec<[u8; 8]> =
        (0..10).map(|key| [0, 1, 2, 3, 4, 5, 6, 7].map(|at| 20 + 9 * key + at)).collect();
    let all: Vec<Call> = words.iter().zip(1..).map(|(text, number)| key(number, text)).collect();
    for scene in SCENES {
        let [first, second] = scene.messages();
        let calls = [&[message(&first), message(&second)][..], &all, &[message(&[27, 211, 0, 27, 80])]];
        cases.add_calls(format!("key-texts-{}", scene.name), &calls.concat());
    }
    let shown = [&all[..], &[message(&[27, 211, 0])]].concat();
    for (name, bytes) in [
        ("under-secret", &b"\x1b{\x1bP"[..]),
        ("under-marks", b"\x1b\xd2\x08\x01X\x1b\xd2\x08\x50\x05\x1bP"),
        ("a-mode-setting", &[27, 208, 2, 8, 39, 35]),
        ("cleared", &[12]),
        ("put-away", b"text\x1b\xd3\x01"),
    ] {
        let calls = [&shown[..], &[message(bytes), message(b"z")]].concat();
        cases.add_calls(format!("key-texts-{name}"), &calls);
    }
    let again = [key(3, b"GROSS kg"), message(&[27, 211, 0]), key(3, b"NET   kg"), message(&[])];
    cases.add_calls("key-text-set-again", &again);
    let piece = |bytes| (Kind::Piece, REPLAY_ROOM, bytes);
    let waiting = [piece(&b"one\x1b\xd3"[..]), key(1, b"TARE    "), piece(&[0, 65])];
    cases.add_calls("key-text-while-bytes-wait", &waiting);
    let closed = [piece(&b"\x1b\xd3\x00\x1b"[..]), key(1, b"TARE    "), (Kind::Closing, REPLAY_ROOM, &[])];
    cases.add_calls("key-text-before-a-closing", &closed);
}

fn refused(cases: &mut Cases) {
    for number in [0, 11, 256, 257, 266, 1 << 32, (1 << 32) + 1, usize::MAX] {
        let calls = [key(number, b"AAAAAAAA"), message(&[27, 211, 0])];
        cases.add_calls(format!("key-number-{number}-refused"), &calls);
    }
    for length in [0, 1, 7, 9, 16, 80] {
        let text = vec![65; length];
        let calls = [key(1, &text), message(&[27, 211, 0])];
        cases.add_calls(format!("key-text-of-{length}-refused"), &calls);
    }
}

/// Every kind of screen with the key line: its windows, its ends, and back.
fn scenes(cases: &mut Cases) {
    for scene in SCENES {
        let [first, second] = scene.messages();
        let lines = scene.lines[usize::from(scene.selected)];
        // its height is 7, or 14 where it was 16
        let height = scene.height() / 8 * 7;
        let actions: [(&str, &[u8]); 11] = [
            ("step-height", &[27, 148, height, 27, 150]),
            ("step-beyond", &[27, 148, height + 1, 27, 150]),
            ("213", &[27, 213, 88]),
            ("213-back", &[27, 213, 27, 211, 1]),
            ("212-215", &[27, 212, 27, 215]),
            ("first-line", &[27, 61, 32, 32, 88]),
            ("last-line", &[27, 61, 31 + lines, 32, 88, 10]),
            ("seven-steps", b"\x1b\xd4\x1b= \x20a\nb\nc\nd\ne\nf\ng\nh\ni"),
            ("off-and-on", &[27, 211, 1, 27, 211, 0]),
            ("other-screen", &[27, 213, 27, 209, 1 - scene.selected, 27, 213, 27, 211, 1]),
            ("not-tracked", b"\x1b\x95\x01\x1b\xd4\x1b\xd2\x08\x01X\x1b='\x20AB"),
        ];
        for (name, action) in actions {
            let name = format!("key-line-{}-{name}", scene.name);
            cases.add(name, &[&first, &second, &[27, 211, 0], action, b"z\x1bP"]);
        }
        // as it stands, with the step at its greatest
        let whole = [27, 213, 27, 148, scene.height(), 27, 211, 0, 27, 151, 27, 150];
        cases.add(format!("key-line-{}-from-the-end", scene.name), &[&first, &second, &whole]);
    }
}
