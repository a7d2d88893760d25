//! The bays' examples, and the manual's own.

use super::Cases;

#[rustfmt::skip]
pub fn bays(cases: &mut Cases) {
    cases.add("bay-80-printed-bytes", &[&[66; 80]]);
    cases.add("bay-24-of-10", &[&[10; 24]]);
    cases.add("bay-24-of-10-with-text", &[b"first\r\nsecond", &[10; 23]]);
    cases.add("bay-148-8-then-151-once", &[&[27, 148, 8], &[27, 151]]);
    cases.add("bay-148-8-then-151-twice", &[&[27, 148, 8], &[27, 151], &[27, 151]]);
    cases.add("bay-148-8-then-151-thrice", &[&[27, 148, 8], &[27, 151], &[27, 151], &[27, 151]]);
    cases.add_with_room("bay-80-room-655", &[(655, b"AB\x1bP")]);
    cases.add_with_room("bay-80-room-656", &[(656, b"AB\x1bP")]);
    cases.add("bay-show-sample", &[&[65, 27, 27, 66]]);
    // those marked P, once more
    let proved: [(&str, &[u8]); 16] = [
        ("empty", &[]), ("65", &[65]), ("ten-of-10", &[10; 10]), ("61-line-12", &[27, 61, 43, 32]),
        ("61-line-25", &[27, 61, 56, 32]), ("61-line-24-column-80", &[27, 61, 55, 111]),
        ("208-24-25", &[27, 208, 0, 24, 25]), ("208-24-24", &[27, 208, 0, 24, 24]),
        ("208-7-24", &[27, 208, 0, 7, 24]), ("208-mode-2", &[27, 208, 2, 10, 20, 35]),
        ("144-1-24", &[27, 144, 1, 24]), ("144-0-24", &[27, 144, 0, 24]),
        ("144-0-0", &[27, 144, 0, 0]), ("209-at-the-end", &[27, 209]),
        ("209-65", &[27, 209, 65]), ("27", &[27]),
    ];
    for (name, message) in proved {
        cases.add(format!("bay-p-{name}"), &[message]);
    }
    cases.add("bay-p-37-27", &[&[27, 37, 27]]);
}

#[rustfmt::skip]
pub fn manual_examples(cases: &mut Cases) {
    cases.add("manual-cursor-off-and-on", &[b"A>\x1b2\r\n2?\r\nA>", b"\x1b3\r\n3?\r\nA>"]);
    cases.add("manual-conout-214-1", &[&[0x1b], &[0x1b, 0xd6, 0x01]]);
    cases.add("manual-conout-one-call", &[&[0x1b, 0xd6, 0x01]]);
    cases.add("manual-208-mode-2-boundary", &[&[27, 208, 2, 10, 20, 35]]);
    cases.add("manual-208-mode-2-in-hexadecimal", &[&[0x1b, 0xd0, 0x2, 0xa, 0x14, 0x23]]);
    cases.add("manual-224-code-230", &[&[27, 224, 230, 12, 12, 30, 63, 12, 18, 0, 0]]);
    cases.add("manual-224-then-230", &[&[27, 224, 230, 12, 12, 30, 63, 12, 18, 0, 0, 230]]);
    cases.add("manual-198-line", &[&[27, 198, 1, 144, 0, 18, 0, 18, 0, 18, 170, 170, 2]]);
    cases.add("manual-198-line-then-text", &[b"\x1b\xc6\x01\x90\x00\x12\x00\x12\x00\x12\xaa\xaa\x02ok"]);
    cases.add("manual-198-from-400-20", &[&[27, 198, 1, 144, 0, 20, 0, 0, 0, 0, 255, 255, 3, 65]]);
    cases.add("manual-199-pset", &[&[27, 199, 1, 63, 1, 223, 65]]);
    cases.add("manual-199-preset", &[&[27, 199, 0, 0, 0, 0, 65]]);
    cases.add("manual-209-default", &[b"one\x1b\xd1\x01two", &[27, 209]]);
    cases.add("manual-42-home", &[b"text\r\ntext\x1b*home"]);
    cases.add("manual-ctrl-l-home", &[b"text\r\ntext\x0chome"]);
    cases.add("manual-148-then-150", &[&[27, 213, 27, 148, 5, 27, 150], &[27, 150, 27, 150]]);
    cases.add("manual-150-without-148", &[&[27, 213, 27, 150]]);
    cases.add("manual-151-without-148", &[&[27, 151]]);
    cases.add("manual-210-any-place", &[&[27, 210, 8, 80, 42, 27, 210, 1, 1, 43]]);
    cases.add("manual-secret-and-back", &[b"hidden\x1b{", b"\x1b}"]);
}

#[rustfmt::skip]
pub fn manual_sequences(cases: &mut Cases) {
    for letter in *b"UFGEDWISN" {
        cases.add(format!("manual-67-{}", char::from(letter)), &[&[27, 67, letter]]);
    }
    for kind in 0..=3 {
        cases.add(format!("manual-214-{kind}"), &[&[27, 214, kind]]);
    }
    for shift in [0, 2, 4, 6, 16, 18, 32, 34, 64, 66] {
        cases.add(format!("manual-247-{shift}"), &[&[27, 247, 66, 27, 247, shift]]);
    }
    for led in 160..=165 {
        cases.add(format!("manual-{led}"), &[&[27, 160, 27, 162, 27, 164], &[27, led]]);
    }
    for strings in [176, 177] {
        cases.add(format!("manual-{strings}"), &[&[27, strings]]);
    }
    for (second, number) in [(149, 0), (149, 1), (211, 0), (211, 1), (240, 0), (240, 1)] {
        cases.add(format!("manual-{second}-{number}"), &[&[27, second, number]]);
    }
    for (second, number) in [(241, 1), (241, 127), (242, 1), (242, 127)] {
        cases.add(format!("manual-{second}-{number}"), &[&[27, second, number]]);
    }
    for second in 243..=245 {
        cases.add(format!("manual-{second}"), &[&[27, second, 28, 29, 30, 31]]);
    }
    cases.add("manual-246", &[&[65, 27, 246, 66]]);
}

/// What the copies misprint, sent as printed.
pub fn manual_misprints(cases: &mut Cases) {
    cases.add("misprint-cursor-off-27-5-0", &[&[27, 5, 0, 65]]);
    cases.add("misprint-cursor-on-1b-53", &[&[0x1b, 0x53, 65]]);
    cases.add("misprint-cursor-type-27-124", &[&[27, 124, 1, 65]]);
    cases.add("misprint-mode-0-with-byte-2", &[&[27, 208, 2, 24, 24]]);
    cases.add("misprint-mode-0-with-byte-2-and-text", &[&[27, 208, 2, 24, 24, 65, 66]]);
    cases.add("misprint-secret-with-bracket", &[&[65, 27, 91, 66]]);
}
