//! Every field of the settings and of the answer, set by a sequence or a call
//! of its own and read back through the Rust types: a field that the declaration
//! and the archive do not have in the same place is found here.

use px8::{Place, Settings, Terminal};

/// A line of a screen, 0 or 1, runs on.
fn run_on(settings: &mut Settings, screen: u8, line: u8) {
    settings.marks[usize::from(screen)] |= 1 << (line - 1);
}

/// After the message the settings are the opening's, but for `change`.
fn sets(message: &[u8], change: impl Fn(&mut Settings)) {
    let mut terminal = Terminal::open();
    let mut expected = *terminal.settings();
    change(&mut expected);
    let answer = terminal.message(message).answer;
    assert!(answer.is_clean(), "{message:?}: {answer}");
    assert_eq!(terminal.settings(), &expected, "{message:?}");
}

#[test]
fn opening_settings() {
    let home = Place { line: 1, column: 1, top: 1, late: 0 };
    let keys = px8::Keys {
        leds: [0; 3],
        charset: b'U',
        strings: 1,
        repeat: 1,
        delay: 32,
        interval: 16,
        shift: 0,
        arrows: [0; 12],
    };
    let expected = Settings {
        mode: 0,
        lines1: 24,
        lines2: 24,
        columns1: 80,
        columns2: 80,
        boundary: 32,
        selected: 0,
        places: [home; 2],
        tracking: 1,
        step: 1,
        secret: 0,
        cursor: 1,
        display: 1,
        kind: 0,
        keys,
        patterns: [0; 248],
        waiting: [0; 12],
        held: 0,
        count: 0,
        texts: [32; 80],
        marks: [0; 2],
        rule: 1,
    };
    assert_eq!(Terminal::open().settings(), &expected);
}

#[test]
fn mode_lines_columns_and_boundary() {
    sets(&[27, 208, 0, 9, 39], |s| (s.lines1, s.lines2) = (9, 39));
    sets(&[27, 208, 1, 20], |s| {
        (s.mode, s.lines1, s.lines2, s.columns1, s.columns2) = (1, 20, 20, 39, 39);
    });
    sets(&[27, 208, 2, 10, 20, 35], |s| {
        (s.mode, s.lines1, s.lines2) = (2, 10, 10);
        (s.columns1, s.columns2, s.boundary) = (20, 59, 35);
    });
}

#[test]
fn selected_and_both_places() {
    sets(&[27, 209, 1], |s| s.selected = 1);
    sets(&[27, 61, 43, 36], |s| s.places[0] = Place { line: 12, column: 5, top: 8, late: 0 });
    sets(&[27, 151], |s| s.places[0].top = 2);
    sets(&[27, 209, 1, 27, 61, 40, 44, 27, 209, 0], |s| {
        s.places[1] = Place { line: 9, column: 13, top: 5, late: 0 };
    });
    sets(&[27, 209, 1, 27, 213, 27, 209, 0], |s| s.places[1].top = 17);
}

#[test]
fn switches() {
    sets(&[27, 149, 1], |s| s.tracking = 0);
    sets(&[27, 148, 5], |s| s.step = 5);
    sets(&[27, 123], |s| s.secret = 1);
    sets(&[27, 50], |s| s.cursor = 0);
    sets(&[27, 211, 0], |s| s.display = 0);
    sets(&[27, 214, 3], |s| s.kind = 3);
}

#[test]
fn switches_back() {
    sets(&[27, 149, 1, 27, 149, 0], |_| {});
    sets(&[27, 123, 27, 125], |_| {});
    sets(&[27, 50, 27, 51], |_| {});
    sets(&[27, 211, 0, 27, 211, 1], |_| {});
    sets(&[27, 176, 27, 177], |_| {});
    sets(&[27, 160, 27, 162, 27, 164, 27, 161, 27, 163, 27, 165], |_| {});
}

#[test]
fn keys() {
    for led in 0..3 {
        sets(&[27, 160 + 2 * led as u8], |s| s.keys.leds[led] = 1);
    }
    sets(&[27, 67, b'N'], |s| s.keys.charset = b'N');
    sets(&[27, 176], |s| s.keys.strings = 0);
    sets(&[27, 240, 0], |s| s.keys.repeat = 0);
    sets(&[27, 241, 127], |s| s.keys.delay = 127);
    sets(&[27, 242, 126], |s| s.keys.interval = 126);
    sets(&[27, 247, 66], |s| s.keys.shift = 66);
}

#[test]
fn arrows() {
    for (start, second) in [(0, 243), (4, 244), (8, 245)] {
        sets(&[27, second, 200, 27, 0, 255], |s| {
            s.keys.arrows[start..start + 4].copy_from_slice(&[200, 27, 0, 255]);
        });
    }
}

#[test]
fn every_pattern() {
    for code in 224..=254 {
        let mut message = vec![27, 224, code];
        message.extend((1..=8).map(|row| code ^ row));
        let start = 8 * usize::from(code - 224);
        sets(&message, |s| s.patterns[start..start + 8].copy_from_slice(&message[3..]));
    }
}

/// The stream's three, by pieces: a byte of each that waits, the longest, and
/// a count of more than three bytes' worth.
#[test]
fn waiting_held_and_count() {
    for length in 1..=12 {
        let mut terminal = Terminal::open();
        let mut expected = *terminal.settings();
        let sequence = [27, 198, 101, 102, 103, 104, 105, 106, 107, 108, 109, 110];
        expected.waiting[..length].copy_from_slice(&sequence[..length]);
        (expected.held, expected.count) = (length as u8, length as u32);
        assert!(terminal.piece(&sequence[..length]).answer.is_clean());
        assert_eq!(terminal.settings(), &expected);
    }
    let opened = Terminal::open();
    let given = Settings { count: 0x3000_0000, ..*opened.settings() };
    let mut terminal =
        Terminal::resume(given, *opened.cells(), *opened.layer(), *opened.shown(), *opened.dots());
    let _ = terminal.piece(&[0; 0x0102]);
    assert_eq!(terminal.settings(), &Settings { count: 0x3000_0102, ..given });
}

/// Every code of the texts, a key at a time.
#[test]
fn texts() {
    let mut terminal = Terminal::open();
    let mut expected = *terminal.settings();
    for key in 1..=px8::KEYS {
        let text = [0, 1, 2, 3, 4, 5, 6, 7].map(|at| 250 - 9 * key as u8 + at);
        expected.texts[8 * (key - 1)..8 * key].copy_from_slice(&text);
        assert!(terminal.key_text(key, &text).is_clean());
        assert_eq!(terminal.settings(), &expected);
    }
}

/// The mark of each line but the last, on both screens, by a byte printed in
/// its last column.
#[test]
fn marks() {
    for (screen, line) in [0, 1].into_iter().flat_map(|screen| (1..24).map(move |line| (screen, line))) {
        sets(&[27, 209, screen, 27, 149, 1, 27, 61, 31 + line, 111, 65], |s| {
            (s.selected, s.tracking) = (screen, 0);
            s.places[usize::from(screen)] = Place { line: line + 1, column: 1, top: 1, late: 0 };
            run_on(s, screen, line);
        });
    }
}

/// Late on each screen, and the rule.
#[test]
fn late_and_rule() {
    for screen in [0, 1] {
        let mut terminal = Terminal::open_with(2).unwrap();
        let mut expected = Settings { rule: 2, ..*Terminal::open().settings() };
        assert_eq!(terminal.settings(), &expected);
        expected.selected = screen;
        expected.places[usize::from(screen)] = Place { line: 3, column: 80, top: 1, late: 1 };
        assert!(terminal.message(&[27, 209, screen, 27, 61, 34, 111, 65]).answer.is_clean());
        assert_eq!(terminal.settings(), &expected);
    }
}

/// Five numbers and the printed bytes, all different.
#[test]
fn answer() {
    let mut terminal = Terminal::open();
    let bytes = [&b"LOAD\x1b2\x1b3\x1bP\x1bP"[..], &[27, 214, 9], b"\x1b\x01", b"kg"].concat();
    let reply = terminal.message(&bytes);
    let answer = reply.answer;
    assert_eq!((answer.number, answer.taken, answer.accepted, answer.refused), (0, 19, 4, 2));
    assert_eq!((answer.first, answer.offset, answer.printed), (11, 12, 2 * px8::COPY as u64));
    assert_eq!(reply.printed.len(), 2 * px8::COPY);
}
