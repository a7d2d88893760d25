//! Document 02, P4: what a copy could get wrong of two screens.

use super::{entry, Break};

#[rustfmt::skip]
pub const BREAKS: &[Break] = &[
    entry("differences-by-columns", "differences.rs",
        "for row in 1..=ROWS {
        for column in 1..=WIDTH {",
        "for column in 1..=WIDTH {
        for row in 1..=ROWS {"),
    entry("first-difference-by-columns", "differences.rs",
        "column += 1;
        if column > WIDTH {
            (row, column) = (row + 1, 1);
        }",
        "row += 1;
        if row > ROWS && column < WIDTH {
            (row, column) = (1, column + 1);
        }"),
    entry("row-from-0", "differences.rs", "row: row as u8,", "row: row as u8 - 1,"),
    entry("column-from-0", "differences.rs", "column: column as u8,", "column: column as u8 - 1,"),
    entry("codes-exchanged", "differences.rs",
        "first: first[at], second: second[at] };",
        "first: second[at], second: first[at] };"),
    entry("a-list-just-long-enough-refused", "differences.rs",
        "if found.len() > list.len() {",
        "if found.len() >= list.len() {"),
    entry("18-leaves-records", "differences.rs",
        "return (18, 0);",
        "list.copy_from_slice(&found[..list.len()]);
        return (18, 0);"),
    entry("18-gives-the-count", "differences.rs", "return (18, 0);", "return (18, found.len());"),
    entry("list-cleared-behind", "differences.rs",
        "(0, found.len())",
        "list[found.len()..].fill(Record { row: 0, column: 0, first: 0, second: 0 });
    (0, found.len())"),
    entry("last-difference-as-the-first", "differences.rs",
        "let mut row = 1;
    let mut column = 1;",
        "let last = (0..SHOWN).rfind(|&at| first[at] != second[at]).unwrap_or(0);
    let (mut row, mut column) = (last / WIDTH + 1, last % WIDTH + 1);"),
    entry("18-judged-before-1", "differences.rs",
        "return (1, 0);",
        "let differ = first.iter().zip(second).filter(|(one, other)| one != other).count();
        return (if differ > list.len() { 18 } else { 1 }, 0);"),
    entry("screens-of-one-wrong-size-taken", "differences.rs",
        "if first.len() != 640 || second.len() != 640 {",
        "if first.len() != 640 && first.len() < second.len() || second.len() < 640 {"),
    entry("last-row-not-searched", "differences.rs", "while row <= ROWS {", "while row < ROWS {"),
    entry("last-column-not-listed", "differences.rs", "for column in 1..=WIDTH {", "for column in 1..WIDTH {"),
];
