//! The late wrap: rules and flags, sound and not, and what follows a byte in
//! the last column.

use super::messages::Belief;
use super::sequences::sequence;
use super::settings::inside;
use crate::random::Random;
use reference::Settings;

/// Numbers that are no rule; some are one to whoever looks at a byte.
pub fn no_rule(random: &mut Random) -> usize {
    random.pick(&[0, 3, 255, 256, 257, 258, (1 << 32) + 1, (1 << 32) + 2, usize::MAX])
}

/// A sound flag.
pub fn flag(random: &mut Random, rule: u8, in_last_column: bool) -> u8 {
    u8::from(rule == 2 && in_last_column && !random.one_in(3))
}

/// The ways in which rule and flags are made unsound.
pub const RULE_FAULTS: [&str; 5] =
    ["rule 0", "rule past 2", "flag by rule 1", "flag before the last column", "flag of 2"];

pub fn break_rule(random: &mut Random, fault: &str, settings: &mut Settings) {
    let columns = [settings.columns1, settings.columns2];
    for place in &mut settings.places {
        place.waiting = 0;
    }
    let screen = match (columns[0], settings.mode) {
        (1, _) => 1,
        (_, 3) => 0,
        _ => random.below(2),
    };
    let place = &mut settings.places[screen];
    // a screen of one column is screen 1, or has another of 78 beside it
    let screen_of_one = columns[screen] == 1;
    (place.column, place.waiting, settings.rule) = match fault {
        "rule 0" => (place.column, 0, 0),
        "rule past 2" => (place.column, 0, random.pick(&[3, 4, 255])),
        "flag by rule 1" => (columns[screen], 1, 1),
        "flag of 2" => (columns[screen], random.pick(&[2, 255]), 2),
        _ if screen_of_one => (columns[screen], 2, 2),
        _ => (random.pick(&[1, columns[screen] - 1]), 1, 2),
    };
}

/// A byte in the last column, then what clears a flag or keeps it, then
/// another byte.
pub fn at_the_end(random: &mut Random, belief: &mut Belief, bytes: &mut Vec<u8>) {
    let any = random.between(1, belief.lines());
    let line = random.pick(&[belief.lines(), belief.lines() - 1, any]) as u8;
    let last = belief.columns() as u8 + 31;
    bytes.extend([27, 61, 31 + line, last, random.byte() | 32]);
    if random.one_in(3) {
        bytes.extend([27, 210, inside(random, 1, 8), random.pick(&[1, 80]), random.byte()]);
    }
    match random.below(8) {
        0..=1 => {}
        2 => bytes.push(random.pick(&[8, 10, 12, 13, 7])),
        3 => bytes.extend([27, random.pick(&[42, 84, 89, 84, 89])]),
        4 => bytes.extend([27, 61, inside(random, 32, 31 + belief.lines()), random.pick(&[last, 32])]),
        5 => {
            let here = belief.selected as u8;
            bytes.extend([27, 209, 1 - here]);
            if random.one_in(2) {
                bytes.extend([random.byte() | 32, 27, random.pick(&[42, 84])]);
            }
            bytes.extend([27, 209, here]);
        }
        6 => bytes.extend(random.pick(&[&[27, 61, 31, 32][..], &[27, 27], &[27, 208, 9], &[27, 144, 0, 0]])),
        _ => {
            let second = random.pick(&[144, 145, 150, 151, 211, 212, 213, 215, 208, 80]);
            sequence(random, belief, second, bytes);
        }
    }
    match random.below(3) {
        0 => bytes.extend([27, 37, random.byte()]),
        1 => bytes.push(random.byte() | 32),
        _ => {}
    }
}
