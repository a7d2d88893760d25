//! Arbitrary sound settings, and settings with one thing wrong.

use super::dots::{break_mode_3, in_mode_3, MODE_3_FAULTS};
use super::late::{break_rule, flag, RULE_FAULTS};
use super::lines::{break_marks, marks, MARK_FAULTS};
use super::streams::{break_stream, with_stream, STREAM_FAULTS};
use crate::random::Random;
use reference::settings::OPENING;
use reference::{Keys, Place, Settings};

/// A number of a range, its ends more often than the rest.
pub fn inside(random: &mut Random, low: usize, high: usize) -> u8 {
    let number = match random.below(6) {
        0 => low,
        1 => high,
        _ => random.between(low, high),
    };
    number as u8
}

/// H, by mode and key display.
pub fn height(mode: u8, display: u8) -> usize {
    match (mode, display) {
        (1, 0) => 14,
        (1, _) => 16,
        (_, 0) => 7,
        _ => 8,
    }
}

/// Arbitrary sound settings.
pub fn settings(random: &mut Random) -> Settings {
    let two = of_two_screens(random);
    let whole = if random.one_in(4) { in_mode_3(random, &two) } else { two };
    with_stream(random, whole)
}

/// Of modes 0 to 2, without a stream.
fn of_two_screens(random: &mut Random) -> Settings {
    let (mode, lines, columns) = measures(random);
    let display = random.byte() & 1;
    let height = height(mode, display);
    let rule = random.pick(&[1, 2]);
    let place = |random: &mut Random, screen: usize| {
        let column = inside(random, 1, columns[screen].into());
        Place {
            line: inside(random, 1, lines[screen].into()),
            column,
            top: inside(random, 1, usize::from(lines[screen]) - height + 1),
            waiting: flag(random, rule, column == columns[screen]),
        }
    };
    let mut patterns = [0; 248];
    random.fill(&mut patterns);
    let mut texts = [0; 80];
    random.fill(&mut texts);
    Settings {
        mode,
        lines1: lines[0],
        lines2: lines[1],
        columns1: columns[0],
        columns2: columns[1],
        boundary: random.byte(),
        selected: random.byte() & 1,
        places: [place(random, 0), place(random, 1)],
        tracking: random.byte() & 1,
        step: inside(random, 1, height),
        secret: u8::from(random.one_in(6)),
        cursor: random.byte() & 1,
        display,
        kind: random.byte() & 3,
        keys: keys(random),
        patterns,
        texts,
        marks: marks(random, lines),
        rule,
        ..OPENING
    }
}

fn measures(random: &mut Random) -> (u8, [u8; 2], [u8; 2]) {
    match random.below(3) {
        0 => {
            let first = inside(random, 8, 40);
            (0, [first, inside(random, 8, 48 - usize::from(first))], [80, 80])
        }
        1 => (1, [inside(random, 16, 48); 2], [39, 39]),
        _ => {
            let m = inside(random, 1, 78);
            (2, [inside(random, 8, 48); 2], [m, 79 - m])
        }
    }
}

fn keys(random: &mut Random) -> Keys {
    let mut arrows = [0; 12];
    random.fill(&mut arrows);
    Keys {
        leds: [random.byte() & 1, random.byte() & 1, random.byte() & 1],
        charset: random.pick(b"UFGEDWISN"),
        strings: random.byte() & 1,
        repeat: random.byte() & 1,
        delay: inside(random, 1, 127),
        interval: inside(random, 1, 127),
        shift: random.pick(&[0, 2, 4, 6, 16, 18, 32, 34, 64, 66]),
        arrows,
    }
}

type Field = (&'static str, fn(&mut Settings) -> &mut u8);

/// The fields that can be broken by themselves.
#[rustfmt::skip]
pub const FIELDS: [Field; 29] = [
    ("mode", |s| &mut s.mode), ("lines1", |s| &mut s.lines1), ("lines2", |s| &mut s.lines2),
    ("columns1", |s| &mut s.columns1), ("columns2", |s| &mut s.columns2),
    ("selected", |s| &mut s.selected),
    ("line 1", |s| &mut s.places[0].line), ("line 2", |s| &mut s.places[1].line),
    ("column 1", |s| &mut s.places[0].column), ("column 2", |s| &mut s.places[1].column),
    ("top 1", |s| &mut s.places[0].top), ("top 2", |s| &mut s.places[1].top),
    ("tracking", |s| &mut s.tracking), ("step", |s| &mut s.step), ("secret", |s| &mut s.secret),
    ("cursor", |s| &mut s.cursor), ("display", |s| &mut s.display), ("kind", |s| &mut s.kind),
    ("led INS", |s| &mut s.keys.leds[0]), ("led CAPS", |s| &mut s.keys.leds[1]),
    ("led NUM", |s| &mut s.keys.leds[2]), ("charset", |s| &mut s.keys.charset),
    ("strings", |s| &mut s.keys.strings), ("repeat", |s| &mut s.keys.repeat),
    ("delay", |s| &mut s.keys.delay), ("interval", |s| &mut s.keys.interval),
    ("shift", |s| &mut s.keys.shift), ("columns pair", |s| &mut s.columns1),
    ("lines pair", |s| &mut s.lines1),
];

/// One field changed: to just beyond its range, to one more or less, or to
/// any byte. It may stay sound by chance; then the call is served.
pub fn unsound(random: &mut Random, sound: &Settings) -> (&'static str, Settings) {
    let mut settings = *sound;
    if random.one_in(4) {
        let name = random.pick(&STREAM_FAULTS);
        break_stream(random, name, &mut settings);
        return (name, settings);
    }
    if random.one_in(6) {
        let name = random.pick(&MARK_FAULTS);
        break_marks(random, name, &mut settings);
        return (name, settings);
    }
    if random.one_in(6) {
        let name = random.pick(&RULE_FAULTS);
        break_rule(random, name, &mut settings);
        return (name, settings);
    }
    if random.one_in(if sound.mode == 3 { 3 } else { 12 }) {
        let name = random.pick(&MODE_3_FAULTS);
        break_mode_3(random, name, &mut settings);
        return (name, settings);
    }
    let name = broken_field(random, &mut settings);
    (name, settings)
}

/// One of the fields, by its name.
fn broken_field(random: &mut Random, settings: &mut Settings) -> &'static str {
    let (name, field) = random.pick(&FIELDS);
    let beyond = beyond(name, settings);
    let value = field(settings);
    *value = match random.below(4) {
        0 => value.wrapping_add(1),
        1 => random.byte(),
        _ => random.pick(&beyond),
    };
    if name == "columns pair" {
        // both columns, with the right sum but not the mode's
        settings.columns1 = random.pick(&[0, 39, 79, 80]);
        settings.columns2 = random.pick(&[79, 40, 0, 255u8]).wrapping_sub(settings.columns1);
    }
    if name == "lines pair" {
        // one line too few, and nothing else wrong
        let few = least_lines(settings.mode) - 1;
        (settings.lines1, settings.lines2) = (few, if settings.mode == 0 { 8 } else { few });
        for place in &mut settings.places {
            (place.line, place.top) = (1, 1);
        }
        settings.marks = [0; 96];
    }
    name
}

/// The least number of lines, which does not hang on the key line.
fn least_lines(mode: u8) -> u8 {
    if mode == 1 {
        16
    } else {
        8
    }
}

/// The first values outside the range of a field.
fn beyond(name: &str, s: &Settings) -> [u8; 2] {
    let height = height(s.mode, s.display) as u8;
    // mode 3's screen 2 has no lines, and top 1 all the same
    let last_top = |lines: u8| lines.max(height) - height + 1;
    match name {
        "mode" => [3, 4],
        "lines1" | "lines2" => [least_lines(s.mode) - 1, 49],
        "columns1" | "columns2" => [0, 79],
        "line 1" => [0, s.lines1 + 1],
        "line 2" => [0, s.lines2 + 1],
        "column 1" => [0, s.columns1 + 1],
        "column 2" => [0, s.columns2 + 1],
        "top 1" => [0, last_top(s.lines1) + 1],
        "top 2" => [0, last_top(s.lines2) + 1],
        "step" => [0, height + 1],
        "kind" => [4, 255],
        "charset" => [b'A', b'u'],
        "delay" | "interval" => [0, 128],
        "shift" => [1, 8],
        _ => [2, 255],
    }
}
