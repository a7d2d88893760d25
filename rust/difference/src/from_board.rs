//! The archive's settings as the reference has them, field by field, so that no layout is taken
//! on trust. The benchmark, which compares what two sides leave, has this file too.

use reference::{Keys, Place, Settings};

pub fn settings_from_board(s: &px8::Settings) -> Settings {
    let place = |p: px8::Place| Place { line: p.line, column: p.column, top: p.top, waiting: p.late };
    let keys = &s.keys;
    Settings {
        mode: s.mode,
        lines1: s.lines1,
        lines2: s.lines2,
        columns1: s.columns1,
        columns2: s.columns2,
        boundary: s.boundary,
        selected: s.selected,
        places: s.places.map(place),
        tracking: s.tracking,
        step: s.step,
        secret: s.secret,
        cursor: s.cursor,
        display: s.display,
        kind: s.kind,
        keys: Keys {
            leds: keys.leds,
            charset: keys.charset,
            strings: keys.strings,
            repeat: keys.repeat,
            delay: keys.delay,
            interval: keys.interval,
            shift: keys.shift,
            arrows: keys.arrows,
        },
        patterns: s.patterns,
        waiting: s.waiting,
        held: s.held,
        count: s.count,
        texts: s.texts,
        marks: marks_from_board(&s.marks),
        rule: s.rule,
    }
}

/// Bit l − 1 of a screen's number is byte l − 1 of the reference's 48. What stands behind the
/// 48 bits is a byte that is neither 0 nor 1, and its place.
pub(crate) fn marks_from_board(marks: &[u64; 2]) -> [u8; 96] {
    let mut all = [0; 96];
    for (own, bits) in all.chunks_mut(48).zip(marks) {
        for (at, mark) in own.iter_mut().enumerate() {
            *mark = (bits >> at & 1) as u8;
        }
        if bits >> 48 != 0 {
            own[(bits >> 56) as usize % 48] = (bits >> 48) as u8;
        }
    }
    all
}
