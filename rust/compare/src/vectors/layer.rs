//! The layer, and windows that follow the cursor.

use super::Cases;

/// What empties the layer and what does not.
#[rustfmt::skip]
pub fn layer(cases: &mut Cases) {
    let marks = b"\x1b\xd2\x01\x01a\x1b\xd2\x01\x02b\x1b\xd2\x05\x28c\x1b\xd2\x08\x50d";
    let actions: [(&str, &[u8]); 27] = [
        ("print", b"X"), ("37", &[27, 37, 88]), ("print-under-secret", b"\x1b{X\x1b}"), ("8", &[8]),
        ("10", &[10]), ("13", &[13]), ("12", &[12]), ("42", &[27, 42]), ("84", &[27, 84]), ("89", &[27, 89]),
        ("144", &[27, 144, 23, 1]), ("145", &[27, 145, 23, 1]), ("144-refused", &[27, 144, 24, 1]),
        ("209-same", &[27, 209, 0]), ("209-other", &[27, 209, 1]), ("209-refused", &[27, 209, 2]),
        ("150-unmoved", &[27, 150]), ("151", &[27, 151]), ("212-unmoved", &[27, 212]), ("213", &[27, 213]),
        ("215-unmoved", &[27, 215]), ("61-inside", &[27, 61, 39, 32]), ("61-outside", &[27, 61, 40, 32]),
        ("track-least", &[10, 10, 10, 10, 10, 10, 10, 10]), ("lift-not-tracked", b"\x1b\x95\x01\x1b=7\x20\n"),
        ("print-not-shown", b"\x1b\x95\x01\x1b=(\x20X"), ("marked-again", &[27, 210, 1, 1, 0]),
    ];
    for (name, action) in actions {
        cases.add(format!("layer-{name}"), &[marks, action]);
    }
    let halves = b"\x1b\xd2\x01\x2aa\x1b\xd2\x01\x2bb\x1b\xd2\x01\x01c";
    cases.add("layer-right-half", &[&[27, 208, 1, 16], halves, b"\x1b=(\x20X"]);
    let sides = b"\x1b\xd2\x01\x0ba\x1b\xd2\x01\x0cb\x1b\xd2\x01\x01c";
    cases.add("layer-screen-2-of-mode-2", &[&[27, 208, 2, 8, 9, 35, 27, 209, 1], sides, b"X"]);
    cases.add("layer-over-the-boundary", &[&[27, 208, 2, 8, 9, 35], b"\x1b\xd2\x01\x0aX", b"Y"]);
}

/// A cursor that its window misses, and what brings the window back.
#[rustfmt::skip]
pub fn tracking(cases: &mut Cases) {
    let actions: [(&str, &[u8]); 13] = [
        ("print", b"X"), ("37", &[27, 37, 88]), ("8", &[8]), ("13", &[13]), ("10", &[10]),
        ("61", &[27, 61, 44, 33]), ("61-refused", &[27, 61, 99, 33]), ("84", &[27, 84]), ("89", &[27, 89]),
        ("209", &[27, 209, 0]), ("144", &[27, 144, 0, 2]), ("other-code", &[7]), ("215", &[27, 215]),
    ];
    for (name, action) in actions {
        let below = b"\x1b\x95\x01\x1b=-\x20\x1b\x95\x00\x1b\xd2\x02\x02X";
        cases.add(format!("tracking-down-{name}"), &[below, action]);
        let above = b"\x1b\x95\x01\x1b=-\x20\x1b\xd5\x1b\x95\x00\x1b\xd2\x02\x02X";
        cases.add(format!("tracking-up-{name}"), &[above, action]);
        let off = b"\x1b\x95\x01\x1b=-\x20";
        cases.add(format!("tracking-off-{name}"), &[off, action]);
    }
    for line in [1, 4, 8, 9, 12, 13, 20, 21, 24] {
        cases.add(format!("tracking-61-line-{line}"), &[&[27, 61, 31 + line, 32]]);
        cases.add(format!("tracking-61-line-{line}-from-the-end"), &[&[27, 213], &[27, 61, 31 + line, 32]]);
    }
    cases.add("tracking-run-over-a-line", &[b"\x1b\x95\x01\x1b=$n\x1b\xd5\x1b\x95\x00", b"XYZ"]);
}
