//! Document 02, P9: the late wrap. Its examples, what clears the flag and what
//! keeps it, and the opening's rule.

use reference::settings::{mark_of, OPENING};
use reference::text::{replay, Session};
use reference::{opening, sound, Place, Settings};

const ROOM: usize = 1312;

/// From an opening with rule 2.
fn play(parts: &[&[u8]]) -> Session {
    let mut session = Session::open();
    assert_eq!(session.opening(2), 0);
    let bytes = parts.concat();
    assert_eq!(session.play(&bytes, ROOM).refused, 0, "{bytes:?}");
    session
}

fn runs(session: &Session) -> Vec<usize> {
    (1..=48).filter(|&line| session.settings.marks[mark_of(0, line)] == 1).collect()
}

fn cell(session: &Session, line: usize, column: usize) -> u8 {
    session.cells[session.settings.cell(0, line, column)]
}

/// Line, column and flag of screen 1.
fn cursor(session: &Session) -> (u8, u8, u8) {
    let Place { line, column, waiting, .. } = session.settings.places[0];
    (line, column, waiting)
}

/// A full line: the flag is on.
const FULL: &[u8] = &[65; 80];
/// To the last cell of the screen, and printed.
const LAST: &[u8] = &[27, 61, 55, 111, 65];

// ---- the request's examples ----

#[test]
fn the_cursor_waits_and_steps() {
    let mut session = play(&[FULL]);
    assert_eq!((cursor(&session), runs(&session)), ((1, 80, 1), vec![]));
    session.play(&[66], ROOM);
    assert_eq!((cursor(&session), runs(&session), cell(&session, 2, 1)), ((2, 2, 0), vec![1], 66));
}

#[test]
fn codes_clear_the_flag() {
    let session = play(&[FULL, &[13, 66]]);
    assert_eq!((cursor(&session), cell(&session, 1, 1)), ((1, 2, 0), 66));
    let session = play(&[FULL, &[8, 66]]);
    assert_eq!((cursor(&session), cell(&session, 1, 79)), ((1, 80, 0), 66));
    let session = play(&[FULL, &[10, 66]]);
    assert_eq!((cursor(&session), cell(&session, 2, 80), runs(&session)), ((2, 80, 1), 66, vec![]));
    let session = play(&[LAST, &[10]]);
    assert_eq!((cursor(&session), cell(&session, 23, 80), runs(&session)), ((24, 80, 0), 65, vec![]));
}

#[test]
fn erased_while_it_waits() {
    let mut session = play(&[LAST, &[27, 84]]);
    assert_eq!((cursor(&session), cell(&session, 24, 80), runs(&session)), ((24, 80, 1), 32, vec![]));
    session.play(&[66], ROOM);
    assert_eq!((cursor(&session), cell(&session, 24, 1), runs(&session)), ((24, 2, 0), 66, vec![23]));
    assert_eq!(cell(&session, 23, 80), 32);
}

#[test]
fn each_screen_has_its_flag() {
    let session = play(&[FULL, &[27, 209, 1, 27, 209, 0, 66]]);
    assert_eq!((cursor(&session), cell(&session, 2, 1)), ((2, 2, 0), 66));
    let mut session = play(&[FULL, &[27, 209, 1, 66]]);
    assert_eq!((session.settings.places[0].waiting, session.settings.places[1].column), (1, 2));
    session.play(&[27, 42, 13, 8, 10, 27, 61, 32, 32], ROOM);
    assert_eq!(cursor(&session), (1, 80, 1));
    session.play(&[27, 208, 0, 24, 24], ROOM);
    assert_eq!((cursor(&session), session.settings.rule), ((1, 1, 0), 2));
}

#[test]
fn one_column() {
    let session = play(&[&[27, 208, 2, 8, 1, 35, 65, 66]]);
    assert_eq!((cursor(&session), runs(&session)), ((2, 1, 1), vec![1]));
    assert_eq!((cell(&session, 1, 1), cell(&session, 2, 1)), (65, 66));
}

#[test]
fn the_openings_rule() {
    let mut stores = (vec![1; 3840], vec![1; 1280], vec![1; 640], vec![1; 3840]);
    for rule in [0, 3, 255, 256, 257, 258, usize::MAX] {
        let before = stores.clone();
        assert_eq!(opening(rule, &mut stores.0, &mut stores.1, &mut stores.2, &mut stores.3), (OPENING, 23));
        assert_eq!(
            opening(rule, &mut stores.0[1..], &mut stores.1, &mut stores.2, &mut stores.3),
            (OPENING, 1)
        );
        assert_eq!(opening(2, &mut stores.0, &mut stores.1[1..], &mut stores.2, &mut stores.3), (OPENING, 1));
        assert_eq!(stores, before);
    }
    let late = Settings { rule: 2, ..OPENING };
    assert_eq!(opening(2, &mut stores.0, &mut stores.1, &mut stores.2, &mut stores.3), (late, 0));
    assert_eq!(opening(1, &mut stores.0, &mut stores.1, &mut stores.2, &mut stores.3), (OPENING, 0));
}

#[test]
fn flags_that_are_not_sound() {
    let flagged = |rule: u8, screen: usize, column: u8, waiting: u8| {
        let mut settings = Settings { rule, ..OPENING };
        settings.places[screen] = Place { line: 3, column, top: 1, waiting };
        settings
    };
    for screen in 0..2 {
        assert!(sound(&flagged(2, screen, 80, 1)) && sound(&flagged(2, screen, 80, 0)));
        assert!(sound(&flagged(1, screen, 80, 0)));
        for (rule, column, waiting) in [(1, 80, 1), (2, 79, 1), (2, 1, 1), (2, 80, 2), (2, 80, 255)] {
            assert!(!sound(&flagged(rule, screen, column, waiting)), "{rule} {column} {waiting}");
        }
    }
    for rule in [0, 3, 255] {
        assert!(!sound(&Settings { rule, ..OPENING }));
    }
    // by its own screen's columns
    let mut settings = Settings { mode: 2, columns1: 30, columns2: 49, rule: 2, ..OPENING };
    settings.places[1] = Place { line: 1, column: 49, top: 1, waiting: 1 };
    assert!(sound(&settings));
    settings.places[1].column = 30;
    assert!(!sound(&settings));
}

// ---- the rules ----

#[test]
fn what_keeps_the_flag() {
    let kept: [&[u8]; 20] = [
        &[27, 84],
        &[27, 89],
        &[27, 144, 0, 24],
        &[27, 145, 0, 24],
        &[27, 80],
        &[27, 50],
        &[27, 123],
        &[27, 148, 3],
        &[27, 149, 1],
        &[27, 150],
        &[27, 151],
        &[27, 209],
        &[27, 209, 1],
        &[27, 210, 1, 80, 90],
        &[27, 211, 0],
        &[27, 212],
        &[27, 213],
        &[27, 215],
        &[7, 9, 0],
        &[27, 246],
    ];
    for bytes in kept {
        assert_eq!(cursor(&play(&[FULL, bytes])), (1, 80, 1), "{bytes:?}");
    }
    // and what is refused
    for bytes in [&[27, 61, 31, 32][..], &[27, 208, 9], &[27], &[27, 27], &[27, 208, 0, 7, 24]] {
        let mut session = play(&[FULL]);
        assert_eq!(session.play(bytes, ROOM).refused, 1);
        assert_eq!(cursor(&session), (1, 80, 1), "{bytes:?}");
    }
}

#[test]
fn a_placing_onto_the_last_column_clears() {
    let session = play(&[FULL, &[27, 61, 32, 111, 66]]);
    assert_eq!((cursor(&session), cell(&session, 1, 80)), ((1, 80, 1), 66));
    assert_eq!(cursor(&play(&[FULL, &[27, 61, 32, 111]])), (1, 80, 0));
    assert_eq!(cursor(&play(&[FULL, &[12]])), (1, 1, 0));
    assert_eq!(cursor(&play(&[FULL, &[27, 42]])), (1, 1, 0));
}

#[test]
fn a_late_step_lifts_marks_and_tracks_once() {
    let mut session = play(&[LAST, &[27, 37, 66]]);
    assert_eq!((cursor(&session), runs(&session)), ((24, 2, 0), vec![23]));
    assert_eq!((cell(&session, 23, 80), cell(&session, 24, 1)), (65, 66));
    // the window follows when the character is stored, and the layer goes with it
    session = play(&[&[27, 61, 39, 111, 65, 27, 210, 1, 1, 90]]);
    assert_eq!((session.settings.places[0].top, session.shown[0]), (1, 90));
    session.play(&[66], ROOM);
    assert_eq!((session.settings.places[0].top, session.shown[0], session.shown[560]), (2, 32, 66));
    // the mark over the new place is taken, not the one over the old
    session = play(&[FULL, &[27, 210, 1, 80, 90, 27, 210, 2, 1, 91]]);
    session.play(&[66], ROOM);
    assert_eq!((session.shown[79], session.shown[80]), (90, 66));
}

#[test]
fn a_line_in_pieces_is_the_same() {
    let mut session = Session::open();
    session.opening(2);
    for part in [FULL, &[27], &[37], &[66]] {
        session.piece(part, ROOM);
    }
    session.closing();
    assert_eq!((cursor(&session), cell(&session, 2, 1)), ((2, 2, 0), 66));
}

#[test]
fn words_of_replayed_openings() {
    let full = [&[81, 0, 1, 0][..], &[65; 81]].concat();
    let text = replay(&[&[1, 0, 7, 0, 2][..], &full, &[1, 0, 7, 0, 9]].concat());
    let lines: Vec<&str> = text.lines().collect();
    assert_eq!((lines[0], lines[2]), ("1 answer 0", "3 answer 23"));
    // a refused opening leaves the stores, and gives rule 1
    assert_eq!(lines[12], "rule 1 flags 0 0");
    assert!(lines[14].starts_with("1 AAAA"));
    let text = replay(&[&[1, 0, 7, 0, 2][..], &[80, 0, 1, 0], &[65; 80]].concat());
    assert!(text.contains("\nrule 2 flags 1 0\nsums "));
    for bad in [&[0, 0, 7, 0][..], &[2, 0, 7, 0, 1, 1]] {
        assert!(replay(bad).starts_with("1 bad record\n"));
    }
}
