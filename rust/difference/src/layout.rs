//! Settings, answers and records as bytes, by the sizes and offsets that c/px8.h asserts on every processor.

use crate::from_board::marks_from_board;
use crate::marks_to_board;
use reference::differences::Record;
use reference::{Answer, Keys, Place, Settings};

pub const SETTINGS: usize = 408;
/// The longest answer, a pack's.
pub const ANSWER: usize = 40;

pub fn record_of(bytes: &[u8]) -> Record {
    Record { row: bytes[0], column: bytes[1], first: bytes[2], second: bytes[3] }
}

pub fn number(bytes: &[u8], at: usize) -> u32 {
    u32::from_le_bytes(bytes[at..at + 4].try_into().expect("four bytes"))
}

pub fn long(bytes: &[u8], at: usize) -> usize {
    u64::from_le_bytes(bytes[at..at + 8].try_into().expect("eight bytes")) as usize
}

pub fn answer_of(bytes: &[u8; ANSWER]) -> Answer {
    Answer {
        number: bytes[0],
        taken: number(bytes, 4),
        accepted: number(bytes, 8),
        refused: number(bytes, 12),
        first: bytes[16],
        parameter: bytes[17],
        offset: number(bytes, 20),
        printed: long(bytes, 24),
    }
}

/// The settings by the offsets of c/px8.h; what lies behind the fields has any value.
pub fn bytes_of(s: &Settings) -> [u8; SETTINGS] {
    let keys = &s.keys;
    let places = s.places.map(|p| [p.line, p.column, p.top, p.waiting]);
    let first = [s.mode, s.lines1, s.lines2, s.columns1, s.columns2, s.boundary, s.selected];
    let marks = marks_to_board(&s.marks);
    let fields: [(usize, &[u8]); 20] = [
        (0, &marks[0].to_le_bytes()),
        (8, &marks[1].to_le_bytes()),
        (16, &first),
        (23, &places[0]),
        (27, &places[1]),
        (31, &[s.tracking, s.step, s.secret, s.cursor, s.display, s.kind]),
        (37, &keys.leds),
        (40, &[keys.charset]),
        (41, &[keys.strings]),
        (42, &[keys.repeat]),
        (43, &[keys.delay]),
        (44, &[keys.interval]),
        (45, &[keys.shift]),
        (46, &keys.arrows),
        (58, &[s.rule]),
        (59, &s.patterns),
        (307, &[s.held]),
        (308, &s.waiting),
        (320, &s.count.to_le_bytes()),
        (324, &s.texts),
    ];
    let mut bytes = [0xa5; SETTINGS];
    for (at, field) in fields {
        bytes[at..at + field.len()].copy_from_slice(field);
    }
    bytes
}

pub fn settings_of(bytes: &[u8; SETTINGS]) -> Settings {
    fn field<const N: usize>(bytes: &[u8; SETTINGS], at: usize) -> [u8; N] {
        bytes[at..at + N].try_into().expect("as long as that")
    }
    let place = |at: usize| Place {
        line: bytes[at],
        column: bytes[at + 1],
        top: bytes[at + 2],
        waiting: bytes[at + 3],
    };
    Settings {
        mode: bytes[16],
        lines1: bytes[17],
        lines2: bytes[18],
        columns1: bytes[19],
        columns2: bytes[20],
        boundary: bytes[21],
        selected: bytes[22],
        places: [place(23), place(27)],
        tracking: bytes[31],
        step: bytes[32],
        secret: bytes[33],
        cursor: bytes[34],
        display: bytes[35],
        kind: bytes[36],
        keys: Keys {
            leds: field(bytes, 37),
            charset: bytes[40],
            strings: bytes[41],
            repeat: bytes[42],
            delay: bytes[43],
            interval: bytes[44],
            shift: bytes[45],
            arrows: field(bytes, 46),
        },
        patterns: field(bytes, 59),
        held: bytes[307],
        waiting: field(bytes, 308),
        count: number(bytes, 320),
        texts: field(bytes, 324),
        marks: marks_from_board(&[0, 8].map(|at| u64::from_le_bytes(field(bytes, at)))),
        rule: bytes[58],
    }
}
