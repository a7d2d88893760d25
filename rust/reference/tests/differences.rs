//! Document 02, P4: its examples and its refusals.

use reference::differences::{compare, first_difference, text, Record};

const BLANK: [u8; 640] = [32; 640];
const OLD: Record = Record { row: 99, column: 98, first: 97, second: 96 };

/// A blank screen with these codes at these bytes.
fn screen(codes: &[(usize, u8)]) -> [u8; 640] {
    let mut screen = BLANK;
    for &(at, code) in codes {
        screen[at] = code;
    }
    screen
}

fn record(row: u8, column: u8, first: u8, second: u8) -> Record {
    Record { row, column, first, second }
}

#[test]
fn words_of_one_difference() {
    let words = text(Some(&BLANK), Some(&screen(&[(81, 65)])));
    assert_eq!(words, "first 2 2 32 65\n2 2 32 65\n");
    assert_eq!(text(Some(&screen(&[(81, 65)])), Some(&BLANK)), "first 2 2 65 32\n2 2 65 32\n");
}

#[test]
fn words_without_a_difference_and_of_bad_files() {
    assert_eq!(text(Some(&BLANK), Some(&BLANK)), "none\n");
    assert_eq!(text(None, Some(&BLANK)), "refused 1\n");
    assert_eq!(text(Some(&BLANK), None), "refused 1\n");
    assert_eq!(text(Some(&BLANK[1..]), Some(&BLANK)), "refused 1\n");
    assert_eq!(text(Some(&BLANK), Some(&[32; 641])), "refused 1\n");
}

#[test]
fn every_place_can_be_printed() {
    let words = text(Some(&BLANK), Some(&[7; 640]));
    let lines: Vec<&str> = words.lines().collect();
    assert_eq!((lines.len(), lines[0], lines[1]), (641, "first 1 1 32 7", "1 1 32 7"));
    assert_eq!((lines[80], lines[81], lines[640]), ("1 80 32 7", "2 1 32 7", "8 80 32 7"));
}

#[test]
fn differences_go_by_rows() {
    let (first, second) = (BLANK, screen(&[(79, 1), (80, 2)]));
    let mut list = [OLD; 3];
    assert_eq!(compare(&first, &second, &mut list), (0, 2));
    assert_eq!(list, [record(1, 80, 32, 1), record(2, 1, 32, 2), OLD]);
    assert_eq!(first_difference(&first, &second), (0, Some(record(1, 80, 32, 1))));
}

#[test]
fn a_list_too_short_is_left() {
    let second = screen(&[(0, 1), (81, 2), (200, 3), (400, 4), (639, 5)]);
    let mut list = [OLD; 4];
    assert_eq!(compare(&BLANK, &second, &mut list), (18, 0));
    assert_eq!(list, [OLD; 4]);
    let mut list = [OLD; 5];
    assert_eq!(compare(&BLANK, &second, &mut list), (0, 5));
    assert_eq!(list[4], record(8, 80, 32, 5));
    let mut list = [OLD; 9];
    assert_eq!(compare(&BLANK, &second, &mut list), (0, 5));
    assert_eq!((list[4], &list[5..]), (record(8, 80, 32, 5), &[OLD; 4][..]));
}

#[test]
fn equal_screens() {
    assert_eq!(compare(&BLANK, &BLANK, &mut []), (0, 0));
    assert_eq!(first_difference(&BLANK, &BLANK), (0, None));
}

#[test]
fn sizes_are_judged_first() {
    for (first, second) in [(639, 640), (640, 639), (641, 640), (640, 641), (0, 0), (639, 639)] {
        let (first, second) = (vec![1; first], vec![2; second]);
        assert_eq!(compare(&first, &second, &mut []), (1, 0));
        assert_eq!(first_difference(&first, &second), (1, None));
    }
    assert_eq!(compare(&BLANK, &[1; 640], &mut []), (18, 0));
}
