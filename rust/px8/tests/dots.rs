//! Mode 3: its settings, the request's examples, copies of dots, refused calls and
//! streams, through the crate.

use px8::{COPY, DOTS, Place, Settings, Terminal};

const MODE_3: &[u8] = &[27, 208, 3];
const CORNERS: &[u8] = &[27, 198, 0, 0, 0, 0, 1, 223, 0, 63, 255, 255, 2];

/// A terminal in mode 3 that has taken these bytes.
fn drawn(bytes: &[u8]) -> Terminal {
    let mut terminal = Terminal::open();
    assert!(terminal.message(&[MODE_3, bytes].concat()).answer.is_clean(), "{bytes:?}");
    terminal
}

fn filled(terminal: &Terminal) -> Vec<(usize, u8)> {
    terminal.dots().iter().copied().enumerate().filter(|(_, byte)| *byte != 0).collect()
}

#[test]
fn settings_of_mode_3() {
    let given = [&[27, 214, 1, 27, 211, 0, 27, 148, 5, 27, 149, 1, 27, 50, 27, 209, 1][..], b"text"].concat();
    let mut terminal = Terminal::open();
    let _ = terminal.message(&given);
    let _ = terminal.message(MODE_3);
    let home = Place { line: 1, column: 1, top: 1, late: 0 };
    let opening = *Terminal::open().settings();
    let expected = Settings {
        mode: 3,
        lines1: 8,
        lines2: 0,
        columns1: 80,
        columns2: 0,
        places: [home; 2],
        kind: 3,
        cursor: 0,
        ..opening
    };
    assert_eq!(terminal.settings(), &expected);
    assert!(terminal.message(&[27, 208, 0, 24, 24]).answer.is_clean());
    assert_eq!(terminal.settings(), &Settings { kind: 3, cursor: 0, ..opening });
}

#[test]
fn the_requests_examples() {
    assert_eq!(filled(&drawn(&[27, 199, 1, 0, 0, 0])), [(0, 128)]);
    assert_eq!(filled(&drawn(&[27, 199, 1, 63, 1, 223])), [(3839, 1)]);
    let manual = drawn(&[27, 198, 1, 144, 0, 18, 0, 18, 0, 18, 170, 170, 2]);
    let dots = manual.dots();
    assert_eq!((dots[1082], dots[1083], dots[1129], dots[1130]), (42, 170, 170, 128));
    assert_eq!(dots.iter().map(|byte| byte.count_ones()).sum::<u32>(), 192);
    assert_eq!(filled(&drawn(&[27, 198, 0, 0, 0, 0, 0, 2, 0, 1, 255, 255, 2])), [(0, 128), (60, 96)]);
    assert_eq!(filled(&drawn(&[27, 198, 0, 2, 0, 1, 0, 0, 0, 0, 255, 255, 2])), [(0, 192), (60, 32)]);
    assert_eq!(filled(&drawn(&[27, 198, 0, 5, 0, 5, 0, 5, 0, 5, 128, 0, 3])), [(300, 4)]);
    assert_eq!(filled(&drawn(&[27, 198, 0, 5, 0, 5, 0, 5, 0, 5, 127, 255, 3])), []);
    assert_eq!(filled(&drawn(&[27, 198, 0, 0, 0, 0, 0, 0, 0, 9, 0, 128, 2])), [(480, 128)]);
    let marked = drawn(&[27, 210, 1, 1, 90, 27, 209, 7]);
    assert_eq!(marked.shown()[0], 90);
    assert_eq!(filled(&drawn(&[CORNERS, &[27, 42]].concat())), []);
    assert_eq!(filled(&drawn(&[CORNERS, &[27, 208, 0, 24, 24]].concat())), []);
}

#[test]
fn refused_dots() {
    let rows: [(&[u8], u8); 8] = [
        (&[27, 199, 1, 63, 1, 224], 4),
        (&[27, 199, 2, 64, 2, 0], 1),
        (&[27, 199, 1, 64, 2, 0], 2),
        (&[27, 198, 1, 224, 0, 0, 0, 0, 0, 0, 255, 255, 2], 2),
        (&[27, 198, 0, 0, 1, 0, 0, 0, 0, 0, 255, 255, 2], 4),
        (&[27, 198, 0, 0, 0, 0, 2, 0, 0, 0, 255, 255, 2], 6),
        (&[27, 198, 0, 0, 0, 0, 0, 0, 0, 64, 255, 255, 2], 8),
        (&[27, 198, 0, 0, 0, 0, 0, 0, 0, 0, 255, 255, 0], 11),
    ];
    for (bytes, parameter) in rows {
        let mut terminal = drawn(CORNERS);
        let before = terminal.clone();
        let answer = terminal.message(bytes).answer;
        assert_eq!((answer.first, answer.parameter), (px8::OUT_OF_RANGE, parameter), "{bytes:?}");
        assert_eq!(terminal, before);
        // in mode 0 neither is judged, and neither acts
        let mut terminal = Terminal::open();
        assert!(terminal.message(bytes).answer.is_clean());
        assert_eq!(filled(&terminal), []);
    }
}

#[test]
fn copies_of_dots() {
    let mut terminal = drawn(&[CORNERS, b"text\x1b{"].concat());
    let answer = terminal.message_with_room(&[27, 80], DOTS - 1).answer;
    assert_eq!((answer.first, answer.printed), (px8::NO_ROOM, 0));
    let reply = terminal.message(&[27, 80, 27, 80]);
    assert_eq!(reply.printed, [*terminal.dots(), *terminal.dots()].concat());
    assert_eq!(terminal.shown(), &[32; px8::SHOWN]);
    // room is made for a mode that the same bytes set, or that waits
    let reply = Terminal::open().message(&[b"\x1bP", MODE_3, b"\x1bP"].concat());
    assert_eq!((reply.answer.refused, reply.printed.len()), (0, COPY + DOTS));
    let mut terminal = Terminal::open();
    let _ = terminal.piece(&[27, 208]);
    let reply = terminal.piece(&[3, 27, 80, 27]);
    assert_eq!((reply.answer.refused, reply.printed.len()), (0, DOTS));
    assert_eq!(terminal.piece(&[80]).printed.len(), DOTS);
}

#[test]
fn a_line_of_dots_cut_anywhere() {
    let line = [MODE_3, CORNERS, b"ok\x1bP"].concat();
    let mut whole = Terminal::open();
    let printed = whole.message(&line).printed;
    for cut in 0..=line.len() {
        let mut terminal = Terminal::open();
        let mut copies = terminal.piece(&line[..cut]).printed;
        copies.extend(terminal.piece(&line[cut..]).printed);
        assert!(terminal.closing().is_clean());
        assert_eq!((&terminal, &copies), (&whole, &printed), "{cut}");
    }
}

/// The bitmap is what the program `picture` writes.
#[test]
fn bitmaps() {
    let message = [MODE_3, CORNERS].concat();
    let recording = [&[message.len() as u8, 0, 1, 0], &message[..]].concat();
    assert_eq!(drawn(CORNERS).bitmap(), reference::text::image(&recording));
    assert_eq!(drawn(CORNERS).dot_rows().flatten().copied().collect::<Vec<u8>>(), drawn(CORNERS).dots());
    assert_eq!((drawn(CORNERS).dot(0, 0), drawn(CORNERS).dot(1, 0)), (Some(true), Some(false)));
}
