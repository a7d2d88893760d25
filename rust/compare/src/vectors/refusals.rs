//! Cut sequences, the other refusals, and copies with their room.

use super::Cases;

/// Every sequence with parameters but 209.
pub const WHOLE: [&[u8]; 23] = [
    &[27, 37, 65],
    &[27, 67, 85],
    &[27, 148, 1],
    &[27, 149, 1],
    &[27, 211, 0],
    &[27, 214, 1],
    &[27, 240, 0],
    &[27, 241, 1],
    &[27, 242, 1],
    &[27, 247, 2],
    &[27, 61, 33, 33],
    &[27, 144, 0, 1],
    &[27, 145, 0, 1],
    &[27, 210, 1, 1, 65],
    &[27, 199, 1, 1, 1, 1],
    &[27, 243, 1, 2, 3, 4],
    &[27, 244, 1, 2, 3, 4],
    &[27, 245, 1, 2, 3, 4],
    &[27, 224, 224, 1, 2, 3, 4, 5, 6, 7, 8],
    &[27, 198, 1, 2, 3, 4, 5, 6, 7, 8, 9, 10, 11],
    &[27, 208, 0, 8, 8],
    &[27, 208, 1, 16],
    &[27, 208, 2, 8, 8, 35],
];

/// Each of them cut at every length.
pub fn cut_sequences(cases: &mut Cases) {
    for sequence in WHOLE {
        for length in 2..sequence.len() {
            let mode = if sequence[1] == 208 { format!("-mode-{}", sequence[2]) } else { String::new() };
            let name = format!("cut-{}{mode}-after-{length}", sequence[1]);
            cases.add(name, &[&[b"text\r\n", &sequence[..length]].concat()]);
        }
    }
}

#[rustfmt::skip]
pub fn refusals(cases: &mut Cases) {
    let listed = |second: &u8| reference::read::length(*second, None).is_some();
    let unlisted: Vec<u8> = (0..=255).filter(|second| !listed(second)).flat_map(|second| [27, second]).collect();
    cases.add("refusal-10-every-byte-not-in-the-list", &[&unlisted]);
    cases.add("refusal-10-escape-escape", &[&[27, 27, 42]]);
    cases.add("refusal-12-with-a-bad-parameter", &[&[27, 208, 2, 99]]);
    cases.add("refusal-12-with-a-bad-line", &[&[27, 61, 0]]);
    cases.add("refusal-12-208-without-a-mode", &[&[65, 27, 208]]);
    cases.add("refusal-11-209-takes-an-escape", &[&[27, 209, 27, 42]]);
    cases.add("refusal-11-escape-as-a-line", &[&[27, 61, 27, 42, 66]]);
    cases.add("refusal-11-208-mode-9", &[&[27, 208, 9, 65]]);
    cases.add("refusal-first-of-several", &[&[65, 27, 67, 90, 27, 208, 4, 27, 1, 27]]);
    cases.add("refusal-first-is-the-last-item", &[&[65, 27, 51, 27]]);
    cases.add("refusal-2-message-of-4097", &[b"text", &[65; 4097]]);
    cases.add("message-of-4096", &[&[65; 4096]]);
    cases.add("message-of-4096-line-steps", &[b"text", &[10; 4096]]);
    cases.add("message-of-4096-escapes", &[&[27; 4096]]);
    cases.add("message-of-4095-escapes", &[&[27; 4095]]);
    let mut cut = vec![66; 4094];
    cut.extend([27, 61]);
    cases.add("message-of-4096-cut", &[&cut]);
    let copies: Vec<u8> = [27, 80].repeat(2048);
    cases.add("message-of-4096-copies", &[&copies]);
    cases.add("message-empty-after-text", &[b"text", &[]]);
}

#[rustfmt::skip]
pub fn copies(cases: &mut Cases) {
    for room in [0, 1, 655, 656, 657, 1311, 1312, 1313, 1967, 1968, 4000] {
        let message = b"A\x1bPB\x1bPC\x1bP";
        cases.add_with_room(format!("copy-three-in-room-{room}"), &[(room, message)]);
    }
    cases.add("copy-of-low-codes", &[b"\x1b%\x00\x1b%\x1f\x1b%\x0d\x1b%\x7f\xff\x1bP"]);
    cases.add("copy-under-secret", &[b"text\x1b\xd2\x01\x09X\x1b{\x1bP\x1b}\x1bP"]);
    cases.add("copy-with-marks", &[b"text\x1b\xd2\x01\x02X\x1b\xd2\x01\x03\x05\x1bP"]);
    cases.add("copy-at-that-moment", &[b"one\x1bP\x1b*two\x1bP"]);
    cases.add_with_room("copy-in-two-calls", &[(656, b"one\x1bP"), (656, b"two\x1bP"), (655, b"\x1bP")]);
    cases.add("copy-in-mode-1", &[b"\x1b\xd0\x01\x30left\x1b=)\x20right\x1bP"]);
    cases.add("copy-in-mode-2", &[b"\x1b\xd0\x02\x08\x14\x05left\x1b\xd1\x01right\x1bP"]);
}
