//! Document 02, P2: the key line. Its examples and its refusals, from the
//! opening.

use reference::picture::{cursor_place, place, source, Source};
use reference::settings::{CELLS, OPENING};
use reference::text::{replay, Session};
use reference::{key_text, sound, Answer, Settings};

const ROOM: usize = 1312;

fn play(bytes: &[u8]) -> Session {
    let mut session = Session::open();
    assert_eq!(session.play(bytes, ROOM).refused, 0, "{bytes:?}");
    session
}

fn first(session: &mut Session, bytes: &[u8]) -> (u8, u8) {
    let answer = session.play(bytes, ROOM);
    assert_eq!(answer.number, 0);
    (answer.first, answer.parameter)
}

fn shown(session: &Session, row: usize, column: usize) -> u8 {
    session.shown[place(row, column)]
}

fn row_8(session: &Session) -> &[u8] {
    &session.shown[place(8, 1)..]
}

fn refused(number: u8) -> Answer {
    Answer { number, ..Answer::default() }
}

// ---- the request's examples ----

#[test]
fn step_is_lowered_and_judged_by_the_new_height() {
    let mut session = play(&[27, 148, 8, 27, 211, 0]);
    assert_eq!(session.settings.step, 7);
    assert_eq!(first(&mut session, &[27, 148, 8]), (11, 1));
    assert_eq!(first(&mut session, &[27, 148, 7]), (0, 0));
    // a smaller one stays, and none is raised again
    assert_eq!(play(&[27, 148, 6, 27, 211, 0]).settings.step, 6);
    assert_eq!(play(&[27, 148, 8, 27, 211, 0, 27, 211, 1]).settings.step, 7);
}

#[test]
fn tracking_and_placing_by_the_new_height() {
    let steps = [&[27, 211, 0][..], &[10; 10]].concat();
    assert_eq!(play(&steps).settings.places[0].top, 5);
    // half of 7 is 3
    assert_eq!(play(&[27, 211, 0, 27, 61, 43, 32]).settings.places[0].top, 9);
    assert_eq!(play(&[27, 211, 0, 27, 61, 43, 32, 27, 212, 27, 215]).settings.places[0].top, 9);
}

#[test]
fn both_tops_are_held() {
    let mut session = play(b"\x1b\xd3\x00\x1b\xd1\x01\x1b=5\x20last\x1b\xd5");
    assert_eq!(session.settings.places[1].top, 18);
    let before = (session.cells.clone(), session.settings);
    session.play(&[27, 209, 0, 27, 211, 1], ROOM);
    let mut expected = Settings { selected: 0, display: 1, ..before.1 };
    expected.places[1].top = 17;
    assert_eq!((session.settings, &session.cells), (expected, &before.0));
    // and the selected one's
    assert_eq!(play(&[27, 211, 0, 27, 213, 27, 211, 1]).settings.places[0].top, 17);
}

#[test]
fn the_right_half_of_mode_1() {
    let session = play(&[27, 211, 0, 27, 208, 1, 16, 27, 61, 39, 32, 65]);
    assert_eq!(shown(&session, 1, 42), 65);
    let mut session = play(&[27, 208, 1, 16, 27, 148, 16, 27, 211, 0]);
    assert_eq!(session.settings.step, 14);
    session.play(&[27, 213], ROOM);
    assert_eq!(session.settings.places[0].top, 3);
    session.play(&[27, 211, 1], ROOM);
    assert_eq!((session.settings.places[0].top, session.settings.step), (1, 14));
}

#[test]
fn marks_go_with_a_changed_display() {
    for (bytes, kept) in [
        (&[27, 210, 2, 2, 90, 27, 211, 1][..], true),
        (&[27, 210, 2, 2, 90, 27, 211, 0], false),
        (&[27, 211, 0, 27, 210, 2, 2, 90, 27, 211, 0], true),
        (&[27, 211, 0, 27, 210, 2, 2, 90, 27, 211, 1], false),
    ] {
        let session = play(bytes);
        let code = if kept { 90 } else { 32 };
        assert_eq!(shown(&session, 2, 2), code, "{bytes:?}");
        assert_eq!(session.layer.iter().any(|&byte| byte != 0), kept);
    }
}

#[test]
fn a_mark_in_row_8_stays_when_the_line_below_the_window_is_printed() {
    let session = play(&[27, 211, 0, 27, 149, 1, 27, 210, 8, 1, 90, 27, 61, 39, 32, 65]);
    assert_eq!((shown(&session, 8, 1), session.cells[7 * 80]), (90, 65));
}

#[test]
fn the_cursors_line_may_leave_the_window() {
    let mut session = play(&[10, 10, 10, 10, 10, 10, 10, 27, 211, 0]);
    assert_eq!((session.settings.places[0].line, session.settings.places[0].top), (8, 1));
    session.play(&[13], ROOM);
    assert_eq!(session.settings.places[0].top, 2);
}

#[test]
fn a_text_is_seen_from_the_next_message_on() {
    let mut session = play(&[27, 211, 0]);
    let before = session.shown.clone();
    assert_eq!(session.key_text(10, b"AAAAAAAA"), Answer::default());
    assert_eq!(session.shown, before);
    session.play(&[27, 80], ROOM);
    let expected = [&[32; 72][..], &[65; 8]].concat();
    assert_eq!(row_8(&session), expected);
    assert_eq!(session.printed[7 * 82..], [&expected[..], &[13, 10]].concat());
}

#[test]
fn the_line_limits_stay() {
    let mut session = play(&[27, 211, 0]);
    assert_eq!(first(&mut session, &[27, 208, 0, 7, 24]), (11, 2));
    assert_eq!(first(&mut session, &[27, 208, 1, 15]), (11, 2));
    let key_line = Settings { display: 0, ..OPENING };
    assert!(sound(&key_line));
    assert!(!sound(&Settings { lines1: 7, ..key_line }));
    let halves = Settings { mode: 1, lines1: 16, lines2: 16, columns1: 39, columns2: 39, ..key_line };
    assert!(sound(&halves));
    assert!(!sound(&Settings { lines1: 15, lines2: 15, ..halves }));
}

// ---- the key call ----

#[test]
fn every_key_has_its_columns() {
    let mut session = play(&[27, 211, 0]);
    for key in 1..=10 {
        let text: Vec<u8> = (0..8).map(|at| 10 * key as u8 + at).collect();
        assert_eq!(session.key_text(key, &text), Answer::default());
    }
    session.play(&[], ROOM);
    let expected: Vec<u8> = (1..=10).flat_map(|key| (0..8).map(move |at| 10 * key + at)).collect();
    assert_eq!(row_8(&session), expected);
    assert_eq!(session.settings.texts[..], expected);
}

#[test]
fn refused_key_texts() {
    let unsound = Settings { step: 8, display: 0, ..OPENING };
    assert_eq!(key_text(unsound, 0, &[]), (unsound, refused(3)));
    assert_eq!(key_text(unsound, 1, &[65; 8]), (unsound, refused(3)));
    for number in [0, 11, 257, 256, usize::MAX] {
        assert_eq!(key_text(OPENING, number, &[65; 8]), (OPENING, refused(17)));
    }
    for length in [0, 1, 7, 9, 80] {
        assert_eq!(key_text(OPENING, 1, &vec![65; length]), (OPENING, refused(17)));
    }
    let mut texts = OPENING.texts;
    texts[..8].fill(0);
    assert_eq!(key_text(OPENING, 1, &[0; 8]), (Settings { texts, ..OPENING }, Answer::default()));
}

#[test]
fn a_key_text_is_set_while_bytes_wait() {
    let mut session = Session::open();
    session.piece(&[27, 211], ROOM);
    assert_eq!(session.key_text(1, b"TARE    "), Answer::default());
    session.piece(&[0], ROOM);
    assert_eq!(&row_8(&session)[..9], b"TARE     ");
}

#[test]
fn texts_and_display_outlive_a_mode_setting() {
    let mut session = play(&[27, 211, 0]);
    session.key_text(5, b"kilogram");
    for mode in [&[27, 208, 0, 8, 8][..], &[27, 208, 1, 16], &[27, 208, 2, 8, 35, 124], &[27, 42]] {
        session.play(mode, ROOM);
        assert_eq!(&row_8(&session)[32..40], b"kilogram");
    }
}

// ---- the picture ----

#[test]
fn the_key_line_takes_every_column_of_row_8() {
    for mode in [&[27, 208, 0, 24, 24][..], &[27, 208, 1, 16], &[27, 208, 2, 8, 39, 124]] {
        let mut session = play(mode);
        for key in 1..=10 {
            session.key_text(key, &[64 + key as u8; 8]);
        }
        assert_eq!(session.play(&[27, 211, 0], ROOM).accepted, 1);
        let expected: Vec<u8> = (1..=10).flat_map(|key| [64 + key; 8]).collect();
        assert_eq!(row_8(&session), expected);
        session.play(&[27, 210, 8, 80, 42, 27, 210, 8, 40, 43], ROOM);
        assert_eq!((shown(&session, 8, 80), shown(&session, 8, 40), shown(&session, 8, 41)), (42, 43, 70));
        session.play(&[27, 123, 27, 80], ROOM);
        assert!(session.shown.iter().chain(&session.printed[7 * 82..][..80]).all(|&code| code == 32));
        // with 1 the screens have it again
        session.play(&[27, 125, 27, 211, 1], ROOM);
        assert!(row_8(&session).iter().all(|&code| code == 32 || code == 124));
    }
}

/// Where a screen's cell is shown, its place is found again; and the key line
/// shows no cell.
#[test]
fn the_cursors_place_is_the_pictures() {
    let modes: [&[u8]; 4] =
        [&[27, 208, 0, 8, 40], &[27, 208, 1, 20], &[27, 208, 2, 12, 30, 35], &[27, 208, 2, 48, 1, 35]];
    for (mode, screen) in modes.into_iter().flat_map(|mode| [(mode, 0), (mode, 1)]) {
        let mut settings = play(&[&[27, 211, 0], mode].concat()).settings;
        settings.selected = screen as u8;
        settings.places[screen].top = settings.greatest_top(screen).min(2) as u8;
        for line in 1..=settings.lines(screen) {
            for column in 1..=settings.columns(screen) {
                settings.places[screen].line = line as u8;
                settings.places[screen].column = column as u8;
                let wanted = Source::Cell { screen, line, column };
                let found = (0..640).find(|at| source(&settings, at / 80 + 1, at % 80 + 1) == wanted);
                assert_eq!(cursor_place(&settings), found);
                assert!(found.is_none_or(|at| at < place(8, 1)));
            }
        }
    }
}

/// Eight rows from the greatest top would leave the cells.
#[test]
fn the_greatest_top_of_the_last_screen() {
    let mut session = play(b"\x1b\xd3\x00\x1b\xd1\x01\x1b=7\x20last line\x1b\xd5");
    assert_eq!(session.settings.places[1].top, 18);
    assert_eq!(session.cells.len(), CELLS);
    assert_eq!(&session.shown[place(7, 1)..][..9], b"last line");
    assert_eq!(first(&mut session, &[27, 151]), (0, 0));
    assert_eq!(session.settings.places[1].top, 18);
}

// ---- replay ----

#[test]
fn words_of_replayed_key_texts() {
    let key = |number: u8, text: &[u8]| [&[text.len() as u8 + 1, 0, 4, 0, number][..], text].concat();
    let show = [3, 0, 1, 0, 27, 211, 0];
    let recording =
        [&key(1, b"TARE    ")[..], &key(11, b"TARE    "), &key(2, b"NET"), &key(2, b""), &show].concat();
    let text = replay(&recording);
    let lines: Vec<&str> = text.lines().collect();
    assert_eq!(lines[..4], ["1 answer 0", "2 answer 17", "3 answer 17", "4 answer 17"]);
    assert_eq!(lines[4], "5 answer 0 taken 3 accepted 1 refused 0 first 0 at 0 printed 0 parameter 0");
    assert!(lines.iter().any(|line| line.starts_with("sums ") && line.contains(" texts ")));
    assert_eq!(lines.last(), Some(&"8 TARE"));
    // a record without a key number is bad
    assert!(replay(&[0, 0, 4, 0]).starts_with("1 bad record\n"));
}
