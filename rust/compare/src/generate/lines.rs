//! Lines that run on: the marks of sound settings, marks that are not sound,
//! and names longer than a line.

use super::messages::Belief;
use super::settings::inside;
use crate::random::Random;
use reference::Settings;

/// Marks for screens of these lines: none, few, many or all that there can be.
pub fn marks(random: &mut Random, lines: [u8; 2]) -> [u8; 96] {
    let mut marks = [0; 96];
    for (own, lines) in marks.chunks_mut(48).zip(lines) {
        let often = random.pick(&[0, 1, 4, 7, 8]);
        for mark in &mut own[..usize::from(lines).saturating_sub(1)] {
            *mark = u8::from(random.below(8) < often);
        }
    }
    marks
}

/// The ways in which marks are made unsound.
pub const MARK_FAULTS: [&str; 6] = [
    "mark on the last line of screen 1",
    "mark on the last line of screen 2",
    "mark past the lines of screen 1",
    "mark past the lines of screen 2",
    "mark of 2",
    "mark of any other byte",
];

pub fn break_marks(random: &mut Random, fault: &str, settings: &mut Settings) {
    let screen = usize::from(fault.ends_with('2') && fault != "mark of 2");
    let lines = usize::from([settings.lines1, settings.lines2][screen]);
    let own = &mut settings.marks[48 * screen..][..48];
    match fault {
        "mark of 2" => own[random.below(lines - 1)] = 2,
        "mark of any other byte" => own[random.below(lines - 1)] = random.byte() | 2,
        "mark on the last line of screen 1" | "mark on the last line of screen 2" => {
            own[lines.max(1) - 1] = 1
        }
        // a screen of 48 lines has none past them
        _ => own[random.pick(&[lines, lines, 47]).min(47)] = 1,
    }
}

/// A name over some lines, perhaps to the last one and further, and then what
/// acts on its marks, from one of them or next to them.
pub fn long_name(random: &mut Random, belief: &Belief, bytes: &mut Vec<u8>) {
    let (lines, columns) = (belief.lines(), belief.columns());
    let put = |line: usize, column: u8| [27, 61, 31 + line as u8, 31 + column];
    let full = random.between(1, 5);
    let any = random.between(1, lines - full);
    let first = random.pick(&[1, 2, any, lines - full]);
    for line in first..first + full {
        bytes.extend(put(line, columns as u8));
        bytes.push(random.byte() | 32);
    }
    if random.one_in(4) {
        bytes.extend(put(lines, columns as u8));
        bytes.push(random.byte() | 32);
    }
    let from = random.between(first.max(2) - 1, first + full);
    bytes.extend(put(from, inside(random, 1, columns)));
    match random.below(10) {
        0..=2 => bytes.extend([27, 84]),
        3 => bytes.extend([27, 89]),
        4 => bytes.extend([27, 42]),
        5 => bytes.push(12),
        6 => {
            bytes.extend(put(lines, 1));
            bytes.extend(vec![10; random.between(1, 3)]);
        }
        _ => {
            let a = from - random.between(1, 2).min(from);
            let m = random.between(1, 5).min(lines - a);
            bytes.extend([27, random.pick(&[144, 145]), a as u8, m as u8]);
        }
    }
}
