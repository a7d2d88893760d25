//! Document 02, P12: short messages. A refused opening leaves the glass as it was
//! painted under other settings: that is how a case comes to a stale one.

use super::scenes::SCENES;
use super::Cases;
use crate::generate::Kind;
use reference::text::REPLAY_ROOM;

type Call<'a> = (Kind, usize, &'a [u8]);

fn short(bytes: &[u8]) -> Call<'_> {
    (Kind::Short, REPLAY_ROOM, bytes)
}

fn message(bytes: &[u8]) -> Call<'_> {
    (Kind::Message, REPLAY_ROOM, bytes)
}

/// Mode 1 with text in all its window, which mode 0 then lays out otherwise.
fn stale() -> [Call<'static>; 2] {
    const TEXT: [u8; 628] = {
        let mut text = [0; 628];
        (text[0], text[1], text[2], text[3]) = (27, 208, 1, 24);
        let mut at = 4;
        while at < text.len() {
            text[at] = b'a' + (at % 26) as u8;
            at += 1;
        }
        text
    };
    [message(&TEXT), (Kind::Opening(3), REPLAY_ROOM, &[])]
}

pub fn cases(cases: &mut Cases) {
    examples(cases);
    wide_items(cases);
    narrow_items(cases);
    cells(cases);
    scenes(cases);
    refused(cases);
}

/// The request's own examples, by number; the eighth is measured.
fn examples(cases: &mut Cases) {
    let mut add = |name: &str, calls: &[Call]| {
        cases.add_calls(format!("short-{name}"), &[&stale()[..], calls].concat());
    };
    add("1-one-letter", &[short(&[65])]);
    add("2-one-place-twice", &[short(&[65, 8, 66])]);
    add("3-seven-line-steps", &[short(&[10; 7])]);
    add("3-eight-line-steps", &[short(&[10; 8])]);
    let above =
        b"\x1b\x95\x01\x1b=\x28\x24\x1b\x94\x08\x1b\x97\x1b\x94\x01\x1b\x97\x1b\x95\x00\x1b\xd2\x03\x03*";
    add("4-top-moved-and-back", &[message(above), short(b"\r\n\n\n\n\n\n\n\n")]);
    add("4-top-moved-back-and-again", &[message(above), short(b"\r\n\n\n\n\n\n\n\n\n")]);
    let key = (Kind::KeyText(10), REPLAY_ROOM, &b"   TALLY"[..]);
    add("5-key-text", &[message(&[27, 211, 0]), key, short(&[])]);
    add("5-key-text-without-the-key-line", &[key, short(&[])]);
    add("6-two", &[short(b"12"), short(b"34")]);
    add("6-two-and-a-message", &[short(b"12"), short(b"34"), message(&[])]);
    add("6-two-and-a-piece", &[short(b"12"), short(b"34"), (Kind::Piece, REPLAY_ROOM, b"5")]);
    add("6-two-and-a-pack", &[short(b"12"), short(b"34"), (Kind::Pack, REPLAY_ROOM, &[0, 0, 1, 0])]);
    add("6-two-and-an-empty-pack", &[short(b"12"), short(b"34"), (Kind::Pack, REPLAY_ROOM, &[])]);
    add("7-not-the-whole-line", &[short(&[27, 61, 35, 40, 65])]);
    add("7-row-8-without-the-key-line", &[short(&[])]);
    add("7-row-8-with-the-key-line", &[message(&[27, 211, 0]), short(b"A")]);
    add("7-lift", &[short(&[27, 149, 1, 27, 61, 55, 32]), short(&[10])]);
}

/// What paints all places, each alone.
#[rustfmt::skip]
const WIDE: [(&str, &[u8]); 18] = [
    ("code-12", &[12]), ("42", &[27, 42]), ("84", &[27, 84]), ("89", &[27, 89]), ("123", &[27, 123]), ("125", &[27, 125]),
    ("144", &[27, 144, 1, 2]), ("145", &[27, 145, 1, 2]), ("150", &[27, 150]), ("151", &[27, 151]), ("208", &[27, 208, 0, 8, 8]),
    ("209", &[27, 209, 0]), ("209-at-the-end", &[27, 209]), ("210", &[27, 210, 8, 1, 65]), ("211", &[27, 211, 1]),
    ("212", &[27, 212]), ("213", &[27, 213]), ("215", &[27, 215]),
];

fn wide_items(cases: &mut Cases) {
    for (name, item) in WIDE {
        cases.add_calls(format!("short-alone-{name}"), &[&stale()[..], &[short(item)]].concat());
        let text = [b"AB", item, b"C"].concat();
        cases.add_calls(format!("short-between-{name}"), &[&stale()[..], &[short(&text)]].concat());
        // no case comes to a stale glass in mode 3; the random lists do
        let mode_3 = [message(b"\x1b\xd0\x03text"), short(item), short(b"more")];
        cases.add_calls(format!("short-in-mode-3-{name}"), &mode_3);
        let secret = [&stale()[..], &[short(b"\x1b{AB"), short(item), short(b"C")]].concat();
        cases.add_calls(format!("short-under-secret-{name}"), &secret);
    }
}

/// What paints no place by itself.
#[rustfmt::skip]
const NARROW: [(&str, &[u8]); 16] = [
    ("nothing", &[]), ("codes", &[0, 7, 8, 9, 11, 13, 14, 31]), ("50", &[27, 50]), ("61", &[27, 61, 34, 40]), ("67", &[27, 67, 78]),
    ("80", &[27, 80]), ("148", &[27, 148, 3]), ("149", &[27, 149, 1]), ("160", &[27, 160]), ("198", &[27, 198, 0, 1, 0, 1, 0, 9, 0, 9, 255, 255, 2]),
    ("214", &[27, 214, 2]), ("224", &[27, 224, 230, 1, 2, 3, 4, 5, 6, 7, 8]), ("243", &[27, 243, 1, 2, 3, 4]),
    ("10", &[27, 27]), ("11", &[27, 208, 0, 7, 24, 27, 209, 2, 27, 210, 0, 1, 65, 27, 144, 24, 1, 27, 211, 2]), ("12", &[27, 208]),
];

fn narrow_items(cases: &mut Cases) {
    for (name, item) in NARROW {
        cases.add_calls(format!("short-little-{name}"), &[&stale()[..], &[short(item)]].concat());
        let text = [item, &b"A"[..]].concat();
        let text = if name == "12" { item } else { &text };
        cases.add_calls(format!("short-little-and-text-{name}"), &[&stale()[..], &[short(text)]].concat());
    }
}

/// Where a printed cell is shown: at the ends of rows, of the screen and of the
/// window, by both rules, followed and not.
fn cells(cases: &mut Cases) {
    let open = |rule| (Kind::Opening(rule), REPLAY_ROOM, &[][..]);
    for rule in [1, 2] {
        for (name, line, column) in [("7", 38, 110), ("8", 39, 110), ("9", 40, 110), ("24", 55, 110)] {
            for (followed, off) in [("followed", 0), ("not-followed", 1)] {
                for (by, bytes) in [("text", &b"ABCD"[..]), ("37", b"\x1b%A\x1b%B\x1b%C\x1b%D")] {
                    let start = [27, 149, off, 27, 61, line, column];
                    let name = format!("short-line-{name}-rule-{rule}-{followed}-{by}");
                    cases.add_calls(name, &[open(rule), message(&start), short(bytes), short(b"E")]);
                }
            }
        }
    }
    let late = [open(2), message(&[65; 80]), message(&[27, 149, 1, 27, 151, 27, 149, 0]), short(b"B")];
    cases.add_calls("short-late-step-from-above-the-window", &late);
    let marks = message(b"\x1b\xd2\x01\x01*\x1b\xd2\x01\x02+\x1b\xd2\x08\x50-");
    cases.add_calls("short-printed-on-a-mark", &[marks, short(b"A"), short(b"\x1b{B"), short(b"\x1b}")]);
    let below = message(&[27, 211, 0, 27, 149, 1, 27, 210, 8, 1, 90, 27, 61, 39, 32]);
    cases.add_calls("short-printed-below-the-key-lines-window", &[below, short(b"A")]);
    for room in [655, 656, 1311, 1312] {
        let copies = (Kind::Short, room, &b"A\x1bPB\x1bP"[..]);
        cases.add_calls(format!("short-copies-in-room-{room}"), &[&stale()[..], &[copies]].concat());
    }
}

/// Every kind of screen, with marks and a window off its ends.
fn scenes(cases: &mut Cases) {
    for scene in &SCENES {
        let screen = usize::from(scene.selected);
        let (lines, columns) = (scene.lines[screen], scene.columns[screen]);
        let [first, second] = scene.messages();
        let mut add = |name: &str, bytes: &[u8]| {
            let calls = [message(&first), message(&second), short(bytes), short(b"z\x1bP"), message(&[])];
            cases.add_calls(format!("short-{}-{name}", scene.name), &calls);
        };
        let last = [27, 61, 31 + lines, 31 + columns];
        add("one-letter", b"X");
        add("a-weight", b"\r38,500");
        add("over-the-line", &[120; 81]);
        add("last-place", &[&last[..], b"XY"].concat());
        add("line-steps", &[10; 5]);
        add("down-and-up", &[27, 61, 31 + lines, 32, 88, 27, 61, 32, 32, 88]);
        add("right-half", &[27, 149, 1, 27, 61, 31 + lines / 2 + 4, 32, 88]);
        add("key-line", &[27, 211, 0, 88]);
        add("other-screen", &[27, 209, 1 - scene.selected, 88]);
    }
}

fn refused(cases: &mut Cases) {
    let wait = (Kind::Piece, REPLAY_ROOM, &[65, 27][..]);
    for (name, bytes) in [("empty", &[][..]), ("letter", b"B"), ("too-long", &[66; 4097])] {
        let calls = [wait, short(bytes), (Kind::Closing, REPLAY_ROOM, &[])];
        cases.add_calls(format!("short-waiting-{name}"), &calls);
    }
    for length in [20, 4096, 4097] {
        let text = vec![66; length];
        cases.add_calls(format!("short-of-{length}"), &[&stale()[..], &[short(&text)]].concat());
    }
    let count =
        [(Kind::Piece, REPLAY_ROOM, &b"abc"[..]), short(&[65, 27]), (Kind::Piece, REPLAY_ROOM, &[27, 27])];
    cases.add_calls("short-between-pieces", &count);
}
