//! The key line through the crate: document 02's examples, and what a key text
//! leaves.

use px8::{Settings, Terminal};

fn after(messages: &[&[u8]]) -> Terminal {
    let mut terminal = Terminal::open();
    for message in messages {
        let answer = terminal.message(message).answer;
        assert!(answer.is_clean(), "{message:?}: {answer}");
    }
    terminal
}

fn tops(terminal: &Terminal) -> [u8; 2] {
    terminal.settings().places.map(|place| place.top)
}

fn row_8(terminal: &Terminal) -> &[u8] {
    terminal.rows().last().unwrap()
}

#[test]
fn a_window_is_a_line_lower() {
    let mut terminal = after(&[&[27, 148, 8, 27, 211, 0]]);
    assert_eq!(terminal.settings().step, 7);
    assert_eq!(terminal.message(&[27, 148, 8]).answer.first, px8::OUT_OF_RANGE);
    assert_eq!(tops(&after(&[&[27, 211, 0], &[10; 10]])), [5, 1]);
    assert_eq!(tops(&after(&[&[27, 211, 0, 27, 61, 43, 32]])), [9, 1]);
    let mut left_below = after(&[&[10; 7], &[27, 211, 0]]);
    assert_eq!((left_below.settings().places[0].line, tops(&left_below)), (8, [1, 1]));
    let _ = left_below.message(&[13]);
    assert_eq!(tops(&left_below), [2, 1]);
}

#[test]
fn both_tops_are_held() {
    let mut terminal = after(&[b"\x1b\xd3\x00\x1b\xd1\x01\x1b=3\x20text\x1b\xd5\x1b\xd1\x00"]);
    assert_eq!(tops(&terminal), [1, 18]);
    let (cells, before) = (*terminal.cells(), *terminal.settings());
    let _ = terminal.message(&[27, 211, 1]);
    assert_eq!((tops(&terminal), *terminal.cells()), ([1, 17], cells));
    let cursor = |settings: &Settings| (settings.places[1].line, settings.places[1].column);
    assert_eq!(cursor(terminal.settings()), cursor(&before));
}

#[test]
fn mode_1_has_a_window_of_14() {
    let terminal = after(&[&[27, 211, 0, 27, 208, 1, 16, 27, 61, 39, 32, 65]]);
    assert_eq!(terminal.shown()[41], 65);
    let mut terminal = after(&[&[27, 208, 1, 16, 27, 148, 16, 27, 211, 0, 27, 213]]);
    assert_eq!((terminal.settings().step, tops(&terminal)), (14, [3, 1]));
    let _ = terminal.message(&[27, 211, 1]);
    assert_eq!((terminal.settings().step, tops(&terminal)), (14, [1, 1]));
}

#[test]
fn marks_and_a_changed_display() {
    let mark = [27, 210, 2, 2, 90];
    for (display, kept) in [(1, true), (0, false)] {
        let terminal = after(&[&mark, &[27, 211, display]]);
        assert_eq!(terminal.shown()[81] == 90, kept);
    }
    // printed on the line below the window, under which row 8 has its mark
    let terminal = after(&[&[27, 211, 0, 27, 149, 1, 27, 210, 8, 1, 90, 27, 61, 39, 32, 65]]);
    assert_eq!((row_8(&terminal)[0], terminal.cells()[560]), (90, 65));
}

#[test]
fn a_text_is_seen_from_the_next_call_on() {
    let mut terminal = after(&[&[27, 211, 0]]);
    let before = *terminal.shown();
    assert!(terminal.key_text(10, &[65; 8]).is_clean());
    assert_eq!(terminal.shown(), &before);
    let printed = terminal.message(&[27, 80]).printed;
    assert_eq!((&row_8(&terminal)[72..], &printed[7 * 82 + 72..]), (&[65; 8][..], &b"AAAAAAAA\r\n"[..]));
    // a piece and a closing show it too, and it is set while bytes wait
    for close in [false, true] {
        let mut terminal = after(&[&[27, 211, 0]]);
        let _ = terminal.piece(&[27]);
        assert!(terminal.key_text(1, b"TARE    ").is_clean());
        let answer = if close { terminal.closing() } else { terminal.piece(&[]).answer };
        assert_eq!(answer.number, px8::SERVED);
        assert!(row_8(&terminal).starts_with(b"TARE    "));
    }
}

/// A text is refused by this number and nothing else, and the settings stay.
fn refused_text(settings: Settings, key: usize, text: &[u8], number: u8) {
    let mut after = settings;
    let answer = px8::key_text(&mut after, key, text);
    let expected = px8::Answer {
        number,
        taken: 0,
        accepted: 0,
        refused: 0,
        first: 0,
        parameter: 0,
        offset: 0,
        printed: 0,
    };
    assert_eq!((after, answer), (settings, expected));
}

#[test]
fn refused_texts_and_limits() {
    let settings = *Terminal::open().settings();
    let unsound = Settings { display: 0, step: 8, ..settings };
    for number in [0, 11, 256, 257, usize::MAX] {
        refused_text(settings, number, &[65; 8], px8::BAD_KEY_TEXT);
        refused_text(unsound, number, &[65; 8], px8::UNSOUND);
    }
    for length in [0, 7, 9] {
        refused_text(settings, 1, &[65; 9][..length], px8::BAD_KEY_TEXT);
    }
    refused_text(unsound, 1, &[65; 8], px8::UNSOUND);
    // the least numbers of lines stay
    let mut terminal = after(&[&[27, 211, 0]]);
    assert_eq!(terminal.message(&[27, 208, 0, 7, 24]).answer.first, px8::OUT_OF_RANGE);
    assert_eq!(terminal.message(&[27, 208, 1, 15]).answer.first, px8::OUT_OF_RANGE);
}
