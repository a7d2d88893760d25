//! Document 02, P10: which parameter a refusal names.

use super::Cases;

/// From the opening: a screen of 24 lines and 80 columns, height 8.
#[rustfmt::skip]
const BAD: [&[u8]; 35] = [
    &[144, 24, 1], &[144, 0, 0], &[144, 1, 24], &[144, 24, 0], &[144, 0, 25], &[144, 255, 255],
    &[145, 24, 1], &[145, 0, 0], &[145, 23, 2], &[145, 24, 0], &[145, 23, 255],
    &[208, 0, 255, 8], &[208, 0, 7, 255], &[208, 0, 8, 7], &[208, 0, 24, 25], &[208, 0, 7, 7],
    &[208, 9], &[208, 4], &[208, 1, 15], &[208, 1, 49], &[208, 2, 8, 79, 0], &[208, 2, 8, 0, 0],
    &[208, 2, 49, 79, 0], &[208, 2, 7, 40, 0],
    &[61, 56, 112], &[61, 55, 112], &[61, 31, 32], &[61, 32, 31],
    &[210, 8, 81, 0], &[210, 9, 81, 0], &[210, 0, 1, 0], &[210, 1, 0, 255],
    &[224, 255, 0, 0, 0, 0, 0, 0, 0, 0], &[148, 9], &[247, 8],
];

pub fn cases(cases: &mut Cases) {
    for sequence in BAD {
        let words: Vec<String> = sequence.iter().take(4).map(u8::to_string).collect();
        cases.add(format!("parameter-{}", words.join("-")), &[&[&[27][..], sequence, b"."].concat()]);
    }
    // numbers that name none
    cases.add("parameter-none-with-10", &[&[27, 27]]);
    cases.add("parameter-none-with-12", &[&[27, 208, 2, 99]]);
    cases.add_with_room("parameter-none-with-13", &[(655, &[27, 80])]);
    // the first refusal's, not a later one's
    cases.add("parameter-of-the-first-of-two", &[&[27, 144, 0, 0, 27, 61, 31, 32]]);
    cases.add("parameter-of-the-first-of-two-turned", &[&[27, 61, 31, 32, 27, 144, 0, 0]]);
    cases.add("parameter-none-before-a-named-one", &[&[27, 27, 27, 61, 31, 32]]);
    // 0 again in the message after it
    cases.add("parameter-of-one-message-alone", &[&[27, 61, 31, 32], b"text"]);
    // on a screen of its own measures
    let second = [27, 208, 2, 12, 30, 35, 27, 209, 1];
    cases.add("parameter-on-screen-2-line", &[&second, &[27, 61, 44, 81]]);
    cases.add("parameter-on-screen-2-column", &[&second, &[27, 61, 43, 81]]);
}
