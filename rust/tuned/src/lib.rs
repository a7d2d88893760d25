//! Document 01 made fast: text is stored in runs, lines move as blocks, the
//! selected screen's measures are worked out once, and an empty layer is
//! not emptied again. All 640 places are painted in each message call; the
//! short one (`shorts`) paints less. Settings are lent, as those of the archive are, and
//! altered in their place.
//!
//! The types are the reference's; the workings are this file's own.

#![forbid(unsafe_code)]

mod dots;
mod engine;
mod packs;
pub mod repeats;
pub mod screens;
mod sequences;
mod shorts;
mod streams;
pub mod writes;

use engine::{Engine, Stores};
pub use packs::pack;
pub use reference::{Answer, Keys, Place, Settings};
pub use shorts::message_short;
pub use streams::{closing, piece};

const START: Settings = Settings {
    mode: 0,
    lines1: 24,
    lines2: 24,
    columns1: 80,
    columns2: 80,
    boundary: b' ',
    selected: 0,
    places: [Place { line: 1, column: 1, top: 1, waiting: 0 }; 2],
    tracking: 1,
    step: 1,
    secret: 0,
    cursor: 1,
    display: 1,
    kind: 0,
    keys: Keys {
        leds: [0; 3],
        charset: b'U',
        strings: 1,
        repeat: 1,
        delay: 32,
        interval: 16,
        shift: 0,
        arrows: [0; 12],
    },
    patterns: [0; 248],
    waiting: [0; 12],
    held: 0,
    count: 0,
    texts: [b' '; 80],
    marks: [0; 96],
    rule: 1,
};

pub fn opening(
    rule: usize,
    cells: &mut [u8],
    layer: &mut [u8],
    shown: &mut [u8],
    dots: &mut [u8],
) -> (Settings, u8) {
    if (cells.len(), layer.len(), shown.len(), dots.len()) != (3840, 1280, 640, 3840) {
        return (START, 1);
    }
    let rule = match rule {
        1 => 1,
        2 => 2,
        _ => return (START, 23),
    };
    cells.fill(b' ');
    layer.fill(0);
    shown.fill(b' ');
    dots.fill(0);
    (Settings { rule, ..START }, 0)
}

pub fn message(
    settings: &mut Settings,
    message: &[u8],
    cells: &mut [u8],
    layer: &mut [u8],
    shown: &mut [u8],
    dots: &mut [u8],
    printer: &mut [u8],
) -> Answer {
    let (stores, picture) = match judged(settings, message, cells, layer, shown, dots) {
        Ok(good) => good,
        Err(number) => return refused(number),
    };
    if settings.held > 0 {
        return refused(16);
    }
    let mut answer = Answer::default();
    let mut engine = Engine::new(settings, stores, printer, ());
    engine.serve::<false>(message, 0, &mut answer);
    engine.paint(picture);
    engine.save();
    answer
}

fn refused(number: u8) -> Answer {
    Answer { number, ..Answer::default() }
}

/// The stores if they have their sizes, the message is short enough and the
/// settings are sound; else 1, 2 or 3. Arrays of fixed size let the compiler
/// drop most bounds checks.
fn judged<'a>(
    settings: &Settings,
    message: &[u8],
    cells: &'a mut [u8],
    layer: &'a mut [u8],
    shown: &'a mut [u8],
    dots: &'a mut [u8],
) -> Result<(Stores<'a>, &'a mut [u8; 640]), u8> {
    let stores = Stores::new(cells, layer, dots).ok_or(1)?;
    let picture = shown.try_into().map_err(|_| 1)?;
    if message.len() > 4096 {
        return Err(2);
    }
    if !sound(settings) {
        return Err(3);
    }
    Ok((stores, picture))
}

/// Document 02, P2: a key's text.
pub fn key_text(settings: &mut Settings, number: usize, text: &[u8]) -> Answer {
    if !sound(settings) {
        return refused(3);
    }
    match settings.texts.chunks_exact_mut(8).nth(number.wrapping_sub(1)) {
        Some(place) if text.len() == 8 => place.copy_from_slice(text),
        _ => return refused(17),
    }
    Answer::default()
}

pub fn printed(buffer: &[u8], count: usize) -> &[u8] {
    buffer.get(..count).unwrap_or(&buffer[..0])
}

/// The rows of the shown screen that are not the key line.
fn rows(s: &Settings) -> u8 {
    if s.display == 0 {
        7
    } else {
        8
    }
}

fn sound(s: &Settings) -> bool {
    let (a, b) = (s.lines1, s.lines2);
    let shape = match s.mode {
        0 => a >= 8 && b >= 8 && a <= 40 && b <= 48 - a && s.columns1 == 80 && s.columns2 == 80,
        1 => a == b && (16..=48).contains(&a) && s.columns1 == 39 && s.columns2 == 39,
        2 => {
            let m = s.columns1;
            a == b && (8..=48).contains(&a) && (1..=78).contains(&m) && s.columns2 == 79 - m
        }
        3 => (a, b, s.columns1, s.columns2) == (8, 0, 80, 0) && alone(s),
        _ => false,
    };
    if !shape {
        return false;
    }
    let height = rows(s) << u8::from(s.mode == 1);
    let inside = |p: &Place, lines: u8, columns: u8| {
        p.line.wrapping_sub(1) < lines
            && p.column.wrapping_sub(1) < columns
            && p.top.wrapping_sub(1) <= lines - height
            && p.waiting <= u8::from(s.rule == 2 && p.column == columns)
    };
    let k = &s.keys;
    let flags = s.selected
        | s.tracking
        | s.secret
        | s.cursor
        | s.display
        | k.leds[0]
        | k.leds[1]
        | k.leds[2]
        | k.strings
        | k.repeat;
    inside(&s.places[0], a, s.columns1)
        && (s.mode == 3 || inside(&s.places[1], b, s.columns2))
        && flags <= 1
        && s.step.wrapping_sub(1) < height
        && s.kind < 4
        && s.rule.wrapping_sub(1) < 2
        && k.delay.wrapping_sub(1) < 127
        && k.interval.wrapping_sub(1) < 127
        && sequences::is_charset(k.charset)
        && sequences::is_shift(k.shift)
        && streams::sound(s)
        && marks_sound(&s.marks[..48], a)
        && marks_sound(&s.marks[48..], b)
}

/// Mode 3's one screen, one cursor type and one display.
fn alone(s: &Settings) -> bool {
    let home = Place { line: 1, column: 1, top: 1, waiting: 0 };
    s.kind == 3 && s.display == 1 && s.selected == 0 && s.places[1] == home
}

/// Nothing but 0 and 1, and from the last line on nothing but 0.
fn marks_sound(marks: &[u8], lines: u8) -> bool {
    let together = |marks: &[u8]| marks.iter().fold(0, |all, mark| all | mark);
    let (before, from) = marks.split_at(usize::from(lines.saturating_sub(1)));
    together(before) <= 1 && together(from) == 0
}
