//! Document 02, P5: lines that run on. Its examples, and what sets, moves and
//! clears a mark, from the opening.

use reference::settings::{mark_of, OPENING};
use reference::text::{replay, Session};
use reference::{message, sound, Settings};

const ROOM: usize = 1312;

fn play(parts: &[&[u8]]) -> Session {
    let mut session = Session::open();
    let bytes = parts.concat();
    assert_eq!(session.play(&bytes, ROOM).refused, 0, "{bytes:?}");
    session
}

/// The marked lines of a screen.
fn runs(session: &Session, screen: usize) -> Vec<usize> {
    (1..=48).filter(|&line| session.settings.marks[mark_of(screen, line)] == 1).collect()
}

fn cell(session: &Session, line: usize, column: usize) -> u8 {
    session.cells[session.settings.cell(0, line, column)]
}

/// From line 1 on, so many lines are printed full.
fn name(lines: usize) -> Vec<u8> {
    vec![65; 80 * lines]
}

fn put(line: u8, column: u8) -> [u8; 4] {
    [27, 61, 31 + line, 31 + column]
}

// ---- the request's examples ----

#[test]
fn the_whole_logical_line_is_erased() {
    let mut session = play(&[&[65; 81]]);
    assert_eq!(runs(&session, 0), [1]);
    session.play(&[27, 61, 32, 32, 27, 84], ROOM);
    assert_eq!((cell(&session, 1, 1), cell(&session, 2, 1), runs(&session, 0)), (32, 32, vec![]));
}

#[test]
fn the_last_column_of_the_last_line() {
    let mut session = play(&[&[27, 61, 55, 111, 65]]);
    assert_eq!((runs(&session, 0), cell(&session, 23, 80)), (vec![23], 65));
    session.play(b"B\x1b=6o\x1bT", ROOM);
    assert_eq!((cell(&session, 23, 80), cell(&session, 24, 1), runs(&session, 0)), (32, 32, vec![]));
}

#[test]
fn scrolled_marks() {
    for (lines, bytes, expected) in [
        (2, [27, 145, 0, 3], &[][..]),
        (2, [27, 145, 0, 4], &[2]),
        (2, [27, 144, 1, 23], &[]),
        (5, [27, 145, 2, 4], &[1, 4]),
        (3, [27, 144, 2, 1], &[1]),
        (3, [27, 145, 2, 1], &[1]),
        // two lines are the region's last two
        (5, [27, 144, 1, 2], &[4, 5]),
        (5, [27, 145, 1, 2], &[4, 5]),
        (5, [27, 144, 0, 5], &[1, 2, 3]),
        (5, [27, 144, 0, 6], &[1, 2, 3, 4]),
        (5, [27, 144, 0, 24], &[1, 2, 3, 4]),
        (5, [27, 145, 0, 24], &[2, 3, 4, 5, 6]),
    ] {
        let session = play(&[&name(lines), &bytes]);
        assert_eq!(runs(&session, 0), expected, "{lines} {bytes:?}");
    }
}

#[test]
fn a_name_of_three_lines_from_its_second() {
    let session = play(&[&name(2), b"rest", &put(2, 5), &[27, 84]]);
    assert_eq!(runs(&session, 0), [1]);
    let rows: Vec<&[u8]> = session.cells[..400].chunks(80).collect();
    assert_eq!((rows[0], &rows[1][..4]), (&[65; 80][..], &[65; 4][..]));
    assert!(rows[1][4..].iter().chain(rows[2]).all(|&code| code == 32));
}

#[test]
fn a_lift_carries_marks() {
    let mut session = play(&[&name(3), &put(24, 1), &[10]]);
    assert_eq!(runs(&session, 0), [1, 2]);
    session.play(&put(24, 80), ROOM);
    session.play(b"X", ROOM);
    assert_eq!(runs(&session, 0), [1, 23]);
    session.play(&[10], ROOM);
    assert_eq!(runs(&session, 0), [22]);
}

#[test]
fn one_column() {
    let session = play(&[&[27, 208, 2, 8, 1, 35, 65, 66]]);
    assert_eq!(runs(&session, 0), [1, 2]);
    // eight lines full, then lifted at each
    let session = play(&[&[27, 208, 2, 8, 1, 35], &[65; 20]]);
    assert_eq!(runs(&session, 0), [1, 2, 3, 4, 5, 6, 7]);
}

#[test]
fn marks_that_are_not_sound() {
    let marked = |screen: usize, line: usize, mark: u8| {
        let mut settings = OPENING;
        settings.marks[mark_of(screen, line)] = mark;
        settings
    };
    for screen in 0..2 {
        for line in 1..=48 {
            assert_eq!(sound(&marked(screen, line, 1)), line < 24, "{screen} {line}");
            assert!(!sound(&marked(screen, line, 2)));
        }
    }
    // each screen by its own lines
    let uneven = |screen, line| Settings { lines1: 8, lines2: 40, ..marked(screen, line, 1) };
    assert!(sound(&uneven(0, 7)) && !sound(&uneven(0, 8)) && sound(&uneven(1, 39)) && !sound(&uneven(1, 40)));
    let (unsound, mut stores) = (marked(1, 24, 1), [3840, 1280, 640, 3840].map(|size| vec![1; size]));
    let [cells, layer, shown, dots] = &mut stores;
    let answer = message(unsound, b"A", cells, layer, shown, dots, &mut []);
    assert_eq!((answer.0, answer.1.number, stores[0][0]), (unsound, 3, 1));
}

// ---- the rules ----

#[test]
fn only_the_last_column_marks() {
    assert_eq!(runs(&play(&[&[65; 79]]), 0), []);
    assert_eq!(runs(&play(&[&[65; 80]]), 0), [1]);
    assert_eq!(runs(&play(&[&put(3, 80), &[27, 37, 0]]), 0), [3]);
    assert_eq!(runs(&play(&[&put(3, 80), &[10]]), 0), []);
    // nothing else takes a mark away
    let kept: [&[u8]; 8] =
        [b"over", &[8, 8, 8], &[10], &[13], &[27, 61, 32, 32], &[27, 209, 1], &[27, 213], &[27, 208, 9]];
    for bytes in kept {
        let mut session = play(&[&name(2), &put(1, 40)]);
        session.play(bytes, ROOM);
        assert_eq!(runs(&session, 0), [1, 2], "{bytes:?}");
    }
}

#[test]
fn erasing_keeps_the_line_above() {
    let marked = [&name(5)[..], &put(3, 2)].concat();
    assert_eq!(runs(&play(&[&marked, &[27, 84]]), 0), [1, 2]);
    assert_eq!(runs(&play(&[&marked, &[27, 89]]), 0), [1, 2]);
    // a run that ends before another begins
    let two = [&name(1)[..], &put(3, 1), &name(1), &put(1, 1), &[27, 84]].concat();
    assert_eq!(runs(&play(&[&two]), 0), [3]);
}

#[test]
fn clearing() {
    let both = [&name(2)[..], &[27, 209, 1], &name(3)].concat();
    for (bytes, expected) in [
        (&[27, 42][..], [vec![1, 2], vec![]]),
        (&[12], [vec![1, 2], vec![]]),
        (&[27, 209, 0, 27, 42], [vec![], vec![1, 2, 3]]),
        (&[27, 208, 0, 24, 24], [vec![], vec![]]),
        (&[27, 208, 1, 48], [vec![], vec![]]),
    ] {
        let session = play(&[&both, bytes]);
        assert_eq!([runs(&session, 0), runs(&session, 1)], expected, "{bytes:?}");
    }
}

#[test]
fn words_of_marked_lines() {
    let name = [&[27, 209, 1][..], &[65; 161]].concat();
    let text = replay(&[&[name.len() as u8, 0, 1, 0], &name[..]].concat());
    let lines: Vec<&str> = text.lines().collect();
    assert_eq!(lines[7..10], ["stream count 0 waiting", "runs 1", "runs 2 1 2"]);
}
