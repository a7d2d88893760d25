//! Document 02, P6: packs.

use super::Cases;
use crate::generate::packs::put;
use crate::generate::Kind;
use reference::settings::DOTS;
use reference::text::REPLAY_ROOM;

type Call<'a> = (Kind, usize, &'a [u8]);

fn packed(bodies: &[&[u8]]) -> Vec<u8> {
    let mut pack = Vec::new();
    bodies.iter().for_each(|body| put(&mut pack, 1, body));
    pack
}

fn pack(bytes: &[u8]) -> Call<'_> {
    (Kind::Pack, REPLAY_ROOM, bytes)
}

fn message(bytes: &[u8]) -> Call<'_> {
    (Kind::Message, REPLAY_ROOM, bytes)
}

pub fn cases(cases: &mut Cases) {
    examples(cases);
    refused(cases);
    rooms(cases);
    whole(cases);
}

/// The request's own examples, by number.
fn examples(cases: &mut Cases) {
    cases.add_calls("pack-1-cut-sequence", &[pack(&[1, 0, 1, 0, 27, 1, 0, 1, 0, 80])]);
    let copies = packed(&[&[27, 80], &[], &[27, 80]]);
    cases.add_calls("pack-2-room-1311", &[(Kind::Pack, 1311, &copies)]);
    cases.add_calls("pack-2-room-1312", &[(Kind::Pack, 1312, &copies)]);
    cases.add_calls("pack-3-cut-record", &[pack(&[1, 0, 2, 0, 65, 1, 0, 1])]);
    cases.add_calls("pack-3-kind-257", &[pack(&[1, 0, 1, 1, 65])]);
    let mut long = vec![1, 0, 9, 0, 65];
    put(&mut long, 1, &[65; 4097]);
    cases.add_calls("pack-3-kind-and-length", &[pack(&long)]);
    let wait = (Kind::Piece, REPLAY_ROOM, &[65, 27][..]);
    for (name, bytes) in
        [("empty", &[][..]), ("cut", &[65]), ("kind", &[0, 0, 9, 0]), ("good", &[1, 0, 1, 0, 66])]
    {
        cases.add_calls(format!("pack-4-waiting-{name}"), &[wait, pack(bytes), (Kind::Closing, 0, &[])]);
    }
    let bodies = packed(&[&[27, 209, 1], &[27, 209], &[66, 27, 61, 99, 32, 67]]);
    cases.add_calls("pack-5-bodies-of-their-own", &[pack(&bodies)]);
    let text = (Kind::KeyText(1), REPLAY_ROOM, &b"ABCDEFGH"[..]);
    let line = message(&[27, 211, 0]);
    cases.add_calls("pack-6-empty-after-a-key-text", &[line, text, pack(&[])]);
    cases.add_calls("pack-6-empty-body-after-a-key-text", &[line, text, pack(&[0, 0, 1, 0])]);
}

/// Every cut of two records, and kinds and lengths that are not served.
fn refused(cases: &mut Cases) {
    let two = packed(&[b"one\x1bP", b"two"]);
    for length in 0..=two.len() {
        cases.add_calls(format!("pack-cut-after-{length}"), &[message(b"text"), pack(&two[..length])]);
    }
    for kind in [0, 2, 255, 256, 257, 511, 65_535] {
        let mut later = packed(&[b"one"]);
        put(&mut later, kind, b"two");
        cases.add_calls(format!("pack-of-kind-{kind}"), &[message(b"text"), pack(&later)]);
    }
    for length in [4096, 4097] {
        let bytes = packed(&[b"one", &vec![66; length]]);
        cases.add_calls(format!("pack-with-a-body-of-{length}"), &[pack(&bytes)]);
    }
    for more in [0, 1] {
        let mut full = packed(&[&[66; 4096][..]; 14]);
        let rest = 60_000 + more - full.len() - 4;
        put(&mut full, 1, &vec![67; rest]);
        cases.add_calls(format!("pack-of-{}", full.len()), &[pack(&full)]);
    }
}

/// Rooms that run out in each record, and in mode 3.
fn rooms(cases: &mut Cases) {
    let four = packed(&[b"A\x1bP", b"B\x1bP", b"C\x1bP\x1bP", b"D\x1bP"]);
    for copies in 0..=5 {
        for less in [0, 1] {
            let room = 656 * copies + 655 * less;
            cases.add_calls(format!("pack-copies-in-room-{room}"), &[(Kind::Pack, room, &four)]);
        }
    }
    let modes =
        packed(&[b"A\x1bP", &[27, 208, 3, 27, 199, 1, 9, 0, 9, 27, 80], &[27, 208, 0, 24, 24], b"B\x1bP"]);
    for room in [655, 656, 656 + DOTS - 1, 656 + DOTS, 2 * 656 + DOTS - 1, 2 * 656 + DOTS] {
        cases.add_calls(format!("pack-modes-in-room-{room}"), &[(Kind::Pack, room, &modes)]);
    }
}

fn whole(cases: &mut Cases) {
    let weights: Vec<String> = (0..200).map(|n| format!("\r{n:05}")).collect();
    let weights: Vec<&[u8]> = weights.iter().map(|weight| weight.as_bytes()).collect();
    cases.add_calls("pack-of-200-weights", &[pack(&packed(&weights))]);
    let refusals: [&[u8]; 5] = [b"good", &[65, 27, 27], b"more", &[27, 61, 31, 32], &[27]];
    cases.add_calls(
        "pack-first-refusal-in-record-2",
        &[pack(&packed(&refusals)), pack(&packed(&refusals[3..]))],
    );
    let streams = [
        (Kind::Piece, REPLAY_ROOM, &b"abc"[..]),
        pack(&[1, 0, 1, 0, 27]),
        (Kind::Piece, REPLAY_ROOM, &[27, 27]),
    ];
    cases.add_calls("pack-between-pieces", &streams);
    let lines = packed(&[&[66; 79], b"CD", &[10; 30], b"\x1b{", b"hidden", b"\x1b}"]);
    cases.add_calls("pack-of-text", &[pack(&lines), pack(&packed(&[b"", b""]))]);
}
