//! Document 02, P10: which parameter a refusal names, from the opening.

use reference::text::{replay, show, Session};

/// Number and parameter of the first refusal.
fn named(bytes: &[u8]) -> (u8, u8) {
    let answer = Session::open().play(bytes, 655);
    assert_eq!(answer.number, 0);
    (answer.first, answer.parameter)
}

/// The first bad parameter of one sequence, which is refused by 11.
fn bad(sequence: &[u8]) -> u8 {
    let (number, parameter) = named(&[&[27], sequence].concat());
    assert_eq!(number, 11, "{sequence:?}");
    parameter
}

#[test]
fn scrolling() {
    for second in [144, 145] {
        assert_eq!(bad(&[second, 24, 1]), 1);
        assert_eq!(bad(&[second, 0, 0]), 2);
        assert_eq!(bad(&[second, 1, 24]), 2);
        assert_eq!(bad(&[second, 24, 0]), 1);
    }
}

#[test]
fn mode_setting() {
    assert_eq!(bad(&[208, 0, 255, 8]), 3);
    assert_eq!(bad(&[208, 0, 7, 255]), 2);
    assert_eq!(bad(&[208, 0, 24, 25]), 3);
    assert_eq!(bad(&[208, 9]), 1);
    assert_eq!(bad(&[208, 1, 15]), 2);
    assert_eq!(bad(&[208, 2, 7, 0, 0]), 2);
    assert_eq!(bad(&[208, 2, 8, 79, 0]), 3);
}

#[test]
fn places() {
    assert_eq!(bad(&[61, 56, 112]), 1);
    assert_eq!(bad(&[61, 55, 112]), 2);
    assert_eq!(bad(&[210, 8, 81, 0]), 2);
    assert_eq!(bad(&[210, 0, 81, 0]), 1);
}

#[test]
fn single_parameters() {
    for second in [67, 148, 149, 209, 211, 214, 240, 241, 242, 247] {
        assert_eq!(bad(&[second, 255]), 1);
    }
    assert_eq!(bad(&[224, 223, 0, 0, 0, 0, 0, 0, 0, 0]), 1);
}

/// "For all other numbers it is 0."
#[test]
fn other_numbers_name_none() {
    assert_eq!(named(&[27, 27]), (10, 0));
    assert_eq!(named(&[27, 208, 2, 99]), (12, 0));
    assert_eq!(named(&[27, 80]), (13, 0));
    assert_eq!(named(b"text"), (0, 0));
}

#[test]
fn the_first_refusal_alone() {
    assert_eq!(named(&[27, 144, 0, 0, 27, 61, 31, 32]), (11, 2));
    assert_eq!(named(&[27, 61, 31, 32, 27, 144, 0, 0]), (11, 1));
    assert_eq!(named(&[27, 27, 27, 61, 31, 32]), (10, 0));
}

/// "The line that "show" prints stays"; replay's ends with the parameter.
#[test]
fn lines_of_the_programs() {
    let message = [27, 144, 0, 0];
    let line = "answer 0 taken 4 accepted 0 refused 1 first 11 at 0";
    assert_eq!(show(&message).lines().next(), Some(line));
    let recording = [&[4, 0, 1, 0][..], &message].concat();
    let expected = format!("1 {line} printed 0 parameter 2");
    assert_eq!(replay(&recording).lines().next(), Some(&expected[..]));
}
