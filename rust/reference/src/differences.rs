//! Document 02, P4: two shown screens side by side, and the words of the
//! program `compare`.

pub use super::settings::Record;
use super::settings::{ROWS, SHOWN, WIDTH};
use std::fmt::Write;

/// "writes one record for each place that differs, in the caller's list ..
/// the list beyond stays; the answer gives their number". The number of the
/// call stands first; a refused call counts none and leaves the list.
pub fn compare(first: &[u8], second: &[u8], list: &mut [Record]) -> (u8, usize) {
    if first.len() != SHOWN || second.len() != SHOWN {
        return (1, 0);
    }
    let mut found = Vec::new();
    for row in 1..=ROWS {
        for column in 1..=WIDTH {
            found.extend(difference(first, second, row, column));
        }
    }
    // "18 in the first exactly when the differences exceed the list"
    if found.len() > list.len() {
        return (18, 0);
    }
    for (at, record) in found.iter().enumerate() {
        list[at] = *record;
    }
    (0, found.len())
}

/// "only the first difference, or none exactly when the screens are equal:
/// search row by row from the left and stop at the first"
pub fn first_difference(first: &[u8], second: &[u8]) -> (u8, Option<Record>) {
    if first.len() != 640 || second.len() != 640 {
        return (1, None);
    }
    let mut row = 1;
    let mut column = 1;
    while row <= ROWS {
        let found = difference(first, second, row, column);
        if found.is_some() {
            return (0, found);
        }
        column += 1;
        if column > WIDTH {
            (row, column) = (row + 1, 1);
        }
    }
    (0, None)
}

/// The record of a place, if it differs.
fn difference(first: &[u8], second: &[u8], row: usize, column: usize) -> Option<Record> {
    let at = WIDTH * (row - 1) + column - 1;
    let record = Record { row: row as u8, column: column as u8, first: first[at], second: second[at] };
    (record.first != record.second).then_some(record)
}

/// Program "compare": the first difference, then all; a file that cannot be
/// read is none.
pub fn text(first: Option<&[u8]>, second: Option<&[u8]>) -> String {
    const REFUSED: &str = "refused 1\n";
    let (Some(first), Some(second)) = (first, second) else {
        return REFUSED.to_string();
    };
    let mut list = [Record { row: 0, column: 0, first: 0, second: 0 }; SHOWN];
    let (number, count) = compare(first, second, &mut list);
    if number != 0 {
        return REFUSED.to_string();
    }
    let mut text = match first_difference(first, second).1 {
        Some(record) => format!("first {}\n", numbers(&record)),
        None => "none\n".to_string(),
    };
    for record in &list[..count] {
        writeln!(text, "{}", numbers(record)).unwrap();
    }
    text
}

fn numbers(record: &Record) -> String {
    let Record { row, column, first, second } = record;
    format!("{row} {column} {first} {second}")
}
