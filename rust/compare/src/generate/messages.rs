//! Messages, part by part.

use super::dots::drawing;
use super::late::at_the_end;
use super::lines::long_name;
use super::sequences::{sequence, SECONDS};
use super::settings::{height, inside};
use crate::random::Random;
use reference::Settings;

/// What the generator takes the measures to be while it writes a message.
pub struct Belief {
    pub mode: u8,
    pub display: u8,
    pub lines: [u8; 2],
    pub columns: [u8; 2],
    pub selected: usize,
}

impl Belief {
    pub fn of(settings: &Settings) -> Belief {
        Belief {
            mode: settings.mode,
            display: settings.display,
            lines: [settings.lines1, settings.lines2],
            columns: [settings.columns1, settings.columns2],
            selected: settings.selected.into(),
        }
    }

    pub fn believe_mode_3(&mut self) {
        let (mode, display, lines, columns, selected) = (3, 1, [8, 0], [80, 0], 0);
        *self = Belief { mode, display, lines, columns, selected };
    }

    pub fn height(&self) -> usize {
        height(self.mode, self.display)
    }

    pub fn lines(&self) -> usize {
        self.lines[self.selected].into()
    }

    pub fn columns(&self) -> usize {
        self.columns[self.selected].into()
    }
}

pub fn message(random: &mut Random, settings: &Settings) -> Vec<u8> {
    let mut belief = Belief::of(settings);
    let mut bytes = Vec::new();
    if random.one_in(150) {
        let length = random.pick(&[4095, 4096, 4096, 4097, 4097, 4098, 5000, 2000]);
        while bytes.len() < length {
            part(random, &mut belief, &mut bytes);
        }
        bytes.truncate(length);
        return bytes;
    }
    for _ in 0..random.below(9) {
        part(random, &mut belief, &mut bytes);
    }
    if random.one_in(6) {
        cut_sequence(random, &mut belief, &mut bytes);
    }
    bytes
}

fn part(random: &mut Random, belief: &mut Belief, bytes: &mut Vec<u8>) {
    match random.below(19) {
        0..=2 => text(random, bytes),
        3 => codes(random, bytes),
        4 => to_the_edge(random, belief, bytes),
        5 => marks(random, bytes),
        6 if random.one_in(2) => damage(random, bytes),
        6 if random.one_in(3) => bytes.extend([27, 148, inside(random, 1, belief.height())]),
        6 if random.one_in(3) => key_display(random, belief, bytes),
        7 => escape_in_parameter(random, belief, bytes),
        8 => long_name(random, belief, bytes),
        9 => at_the_end(random, belief, bytes),
        10 if belief.mode == 3 || random.one_in(3) => drawing(random, belief, bytes),
        _ => {
            let second = random.pick(&SECONDS);
            sequence(random, belief, second, bytes);
        }
    }
}

/// Printed bytes: short runs, runs over a line, seldom over a screen.
fn text(random: &mut Random, bytes: &mut Vec<u8>) {
    let count = match random.below(40) {
        0 => random.between(300, 1500),
        1..=5 => random.between(36, 170),
        _ => random.between(1, 9),
    };
    let any = random.one_in(3);
    for _ in 0..count {
        let byte = if any { inside(random, 32, 255) } else { b'A' + random.below(26) as u8 };
        bytes.push(byte);
    }
}

fn codes(random: &mut Random, bytes: &mut Vec<u8>) {
    match random.below(8) {
        0 => bytes.extend(vec![10; random.between(1, 50)]),
        1 => bytes.extend(vec![8; random.between(1, 30)]),
        2 => bytes.push(12),
        3 => bytes.push(random.below(27) as u8),
        4 => bytes.push(random.between(28, 31) as u8),
        _ => (0..random.between(1, 4)).for_each(|_| bytes.push(random.pick(&[8, 10, 13]))),
    }
}

/// The cursor near the last column or the last line, then over it.
fn to_the_edge(random: &mut Random, belief: &Belief, bytes: &mut Vec<u8>) {
    let line = belief.lines() - random.below(2);
    let column = belief.columns() - random.below(belief.columns().min(3));
    bytes.extend([27, 61, line as u8 + 31, column as u8 + 31]);
    if random.one_in(3) {
        bytes.extend([27, 210, inside(random, 1, 8), inside(random, 1, 80), random.byte()]);
    }
    match random.below(4) {
        0 => bytes.extend([27, 37, random.byte(), 27, 37, random.byte()]),
        1 => bytes.extend([10, 10]),
        _ => (0..random.between(1, 5)).for_each(|_| bytes.push(random.byte() | 32)),
    }
}

fn marks(random: &mut Random, bytes: &mut Vec<u8>) {
    for _ in 0..random.between(1, 6) {
        bytes.extend([27, 210, inside(random, 1, 8), inside(random, 1, 80), random.byte()]);
    }
}

/// The other key display: with a mark in row 8 and the window at its end, or
/// with the cursor in the window's last lines and something printed there.
fn key_display(random: &mut Random, belief: &mut Belief, bytes: &mut Vec<u8>) {
    if random.one_in(2) {
        bytes.extend([27, 213]);
    }
    // idle in mode 3
    if belief.mode != 3 {
        belief.display ^= 1;
    }
    bytes.extend([27, 211, belief.display]);
    if random.one_in(2) {
        bytes.extend([27, 149, 1, 27, 210, 8, inside(random, 1, belief.columns().min(9)), random.byte()]);
        let line = random.between(belief.height() - 1, 8.max(belief.height())).min(belief.lines());
        bytes.extend([27, 212, 27, 61, line as u8 + 31, 32, random.byte() | 32, random.byte() | 32]);
    }
}

/// Bytes that mean little: a byte not in the list, ESC ESC, any bytes.
fn damage(random: &mut Random, bytes: &mut Vec<u8>) {
    match random.below(3) {
        0 => bytes.extend([27, random.byte()]),
        1 => bytes.extend([27, 27]),
        _ => (0..random.between(1, 12)).for_each(|_| bytes.push(random.byte())),
    }
}

/// A sequence that the message's end cuts.
fn cut_sequence(random: &mut Random, belief: &mut Belief, bytes: &mut Vec<u8>) {
    let start = bytes.len();
    let second = random.pick(&SECONDS);
    sequence(random, belief, second, bytes);
    let whole = bytes.len() - start;
    if whole > 2 && random.one_in(2) {
        // cut and bad at once: the cut is named
        bytes[start + 2] = random.pick(&[0, 255]);
    }
    bytes.truncate(start + random.between(1, whole - 1).max(whole.min(2)));
    if random.one_in(4) {
        bytes.truncate(start + 1);
    }
}

fn escape_in_parameter(random: &mut Random, belief: &mut Belief, bytes: &mut Vec<u8>) {
    let start = bytes.len();
    let second = random.pick(&SECONDS);
    sequence(random, belief, second, bytes);
    if bytes.len() > start + 2 {
        let at = random.between(start + 2, bytes.len() - 1);
        bytes[at] = 27;
    }
}
