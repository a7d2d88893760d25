//! Document 02, P12: short messages. The request's examples, what is painted by each
//! item, and that all but the shown screen is the message call's.

use reference::picture::{picture, place};
use reference::settings::{CELLS, COPY, DOTS, LAYER, MARKS, OPENING, SHOWN};
use reference::text::{replay, Session};
use reference::{message_short, Answer, Settings};

/// A glass that shows nothing of what stands.
fn stale() -> Session {
    let mut session = Session::open();
    session.shown.fill(88);
    session
}

/// The same on settings of one's own.
fn stale_with(settings: Settings) -> Session {
    let mut session = stale();
    session.settings = settings;
    session
}

/// The places of rows 1 to 7 that are no longer 88.
fn painted(session: &Session) -> Vec<usize> {
    (0..place(8, 1)).filter(|&at| session.shown[at] != 88).collect()
}

fn true_at(session: &Session, at: usize) -> bool {
    let (row, column) = (at / 80 + 1, at % 80 + 1);
    session.shown[at] == picture(&session.settings, &session.cells, &session.layer, row, column)
}

fn all_true(session: &Session) -> bool {
    (0..SHOWN).all(|at| true_at(session, at))
}

/// What a message paints of a stale glass, rows 1 to 7.
fn painted_by(settings: Settings, message: &[u8]) -> Vec<usize> {
    let mut session = stale_with(settings);
    assert_eq!(session.short(message, COPY).number, 0);
    assert!((place(8, 1)..SHOWN).all(|at| true_at(&session, at)));
    painted(&session)
}

fn everything() -> Vec<usize> {
    (0..place(8, 1)).collect()
}

/// Settings with the selected screen's line, column and top.
fn at(line: u8, column: u8, top: u8) -> Settings {
    let mut settings = OPENING;
    (settings.places[0].line, settings.places[0].column, settings.places[0].top) = (line, column, top);
    settings
}

/// The same by rule 2, the cursor waiting in the last column.
fn waiting(line: u8, top: u8) -> Settings {
    let mut settings = Settings { rule: 2, ..at(line, 80, top) };
    settings.places[0].waiting = 1;
    settings
}

// ---- the request's examples ----

#[test]
fn one_letter() {
    let mut session = stale();
    session.short(&[65], 0);
    assert_eq!(session.shown[0], 65);
    assert!(session.shown[place(8, 1)..].iter().all(|&code| code == 32));
    assert_eq!(session.shown.iter().filter(|&&code| code == 88).count(), 559);
}

#[test]
fn one_place_printed_twice() {
    assert_eq!(painted_by(OPENING, &[65, 8, 66]), [0]);
}

#[test]
fn line_steps_paint_when_the_top_moves() {
    assert_eq!(painted_by(OPENING, &[10; 7]), []);
    assert_eq!(painted_by(OPENING, &[10; 8]), everything());
}

/// The top goes from 10 to 9 and back: each of its two moves empties the layer.
#[test]
fn a_top_that_moves_and_comes_back() {
    let mut session = stale_with(at(9, 5, 10));
    (session.layer[place(3, 3)], session.layer[MARKS + place(3, 3)]) = (1, 42);
    session.shown[place(3, 3)] = 42;
    session.short(&[13, 10, 10, 10, 10, 10, 10, 10, 10], 0);
    assert_eq!((session.settings.places[0].line, session.settings.places[0].top), (17, 10));
    assert_eq!((session.shown[place(3, 3)], session.layer[place(3, 3)]), (32, 0));
    assert!(all_true(&session));
}

#[test]
fn an_empty_one_after_a_key_text() {
    let mut session = Session::open();
    session.play(&[27, 211, 0], 0);
    session.key_text(10, b"   TALLY");
    assert!(!all_true(&session));
    session.short(&[], 0);
    assert!(all_true(&session));
    assert_eq!(session.shown[place(8, 73)..], *b"   TALLY");
}

#[test]
fn a_stale_glass_stays_until_all_is_painted() {
    let mut session = stale();
    session.short(b"12", 0);
    session.short(b"34", 0);
    assert_eq!(painted(&session), [0, 1, 2, 3]);
    session.play(&[], 0);
    assert!(all_true(&session));
}

/// What three wrong programs would do: the line painted whole, row 8 left under
/// display 1, a lift forgotten.
#[test]
fn the_three_mistakes() {
    assert_eq!(painted_by(at(3, 7, 1), b"AB"), [place(3, 7), place(3, 8)]);
    for display in [0, 1] {
        let mut session = stale_with(Settings { display, ..OPENING });
        session.short(&[], 0);
        assert!((place(8, 1)..SHOWN).all(|at| session.shown[at] == 32));
    }
    assert_eq!(painted_by(at(24, 1, 17), &[10]), everything());
}

// ---- which items paint all ----

#[test]
fn lifts() {
    assert_eq!(painted_by(at(24, 80, 17), b"A"), everything());
    assert_eq!(painted_by(at(24, 80, 17), &[27, 37, 65]), everything());
    assert_eq!(painted_by(waiting(24, 17), b"A"), everything());
    // by rule 2 the last place itself lifts nothing; it is in row 8
    assert_eq!(painted_by(Settings { rule: 2, ..at(24, 80, 17) }, b"A"), []);
    // one line higher the step goes down
    assert_eq!(painted_by(at(23, 80, 17), b"A"), [place(7, 80)]);
}

#[test]
fn tops_that_move() {
    assert_eq!(painted_by(OPENING, &[27, 61, 39, 32]), []);
    assert_eq!(painted_by(OPENING, &[27, 61, 40, 32]), everything());
    for item in [&[8][..], &[13], b"A", &[27, 37, 65]] {
        assert_eq!(painted_by(at(20, 5, 1), item), everything(), "{item:?}");
        let mut still = at(20, 5, 1);
        still.tracking = 0;
        assert_eq!(painted_by(still, item), [], "{item:?}");
    }
}

#[test]
fn accepted_sequences_that_change_more() {
    let wide: [&[u8]; 17] = [
        &[12],
        &[27, 42],
        &[27, 84],
        &[27, 89],
        &[27, 123],
        &[27, 125],
        &[27, 144, 0, 1],
        &[27, 145, 0, 1],
        &[27, 150],
        &[27, 151],
        &[27, 208, 1, 16],
        &[27, 209, 0],
        &[27, 210, 8, 1, 65],
        &[27, 211, 1],
        &[27, 212],
        &[27, 213],
        &[27, 215],
    ];
    let mut mode_3 = Session::open();
    mode_3.play(&[27, 208, 3], 0);
    for item in wide {
        assert_eq!(painted_by(OPENING, item), everything(), "{item:?}");
        assert_eq!(painted_by(mode_3.settings, item), everything(), "{item:?} in mode 3");
    }
    assert_eq!(painted_by(OPENING, &[27, 209]), everything());
}

#[test]
fn what_paints_no_place_by_itself() {
    let narrow: [&[u8]; 14] = [
        &[0, 7, 8, 9, 11, 13, 14, 26, 28, 31],
        &[27, 50, 27, 51],
        &[27, 61, 34, 40],
        &[27, 67, 85],
        &[27, 80],
        &[27, 148, 3],
        &[27, 149, 1],
        &[27, 160, 27, 165, 27, 176, 27, 177],
        &[27, 198, 1, 2, 3, 4, 5, 6, 7, 8, 9, 10, 11, 27, 199, 1, 2, 3, 4],
        &[27, 214, 1, 27, 224, 230, 1, 2, 3, 4, 5, 6, 7, 8],
        &[27, 240, 0, 27, 241, 1, 27, 242, 1, 27, 243, 1, 2, 3, 4, 27, 246, 27, 247, 2],
        // refused: 10, 11, 12
        &[27, 27, 27, 209, 9, 27, 208, 9, 27, 210, 9, 1, 65, 27, 144, 0, 0, 27, 211, 2, 27],
        &[27, 208, 0, 7, 24, 27, 210],
        &[],
    ];
    for items in narrow {
        assert_eq!(painted_by(OPENING, items), [], "{items:?}");
    }
}

// ---- places of cells ----

#[test]
fn the_cell_behind_the_late_step() {
    assert_eq!(painted_by(waiting(3, 1), b"A"), [place(4, 1)]);
    assert_eq!(painted_by(waiting(3, 1), &[27, 37, 65]), [place(4, 1)]);
    // from above the window into its first row
    assert_eq!(painted_by(waiting(9, 10), b"A"), [place(1, 1)]);
    // out of the window, which does not follow
    assert_eq!(painted_by(Settings { tracking: 0, ..waiting(8, 1) }, b"A"), []);
    // codes that clear the flag step nowhere
    assert_eq!(painted_by(waiting(3, 1), &[13, 65]), [place(3, 1)]);
    assert_eq!(painted_by(waiting(3, 1), &[8, 65]), [place(3, 79)]);
}

#[test]
fn every_kind_of_screen() {
    let place_of = |start: &[u8], print: &[u8]| {
        let mut session = Session::open();
        session.play(start, 0);
        painted_by(session.settings, print)
    };
    assert_eq!(place_of(&[27, 208, 1, 16, 27, 61, 42, 33], b"A"), [place(3, 43)]);
    assert_eq!(place_of(&[27, 208, 2, 8, 20, 35, 27, 209, 1], b"A"), [place(1, 22)]);
    assert_eq!(place_of(&[27, 208, 2, 8, 20, 35, 27, 61, 33, 51], b"AB"), [place(2, 20), place(3, 1)]);
    assert_eq!(place_of(&[27, 208, 3, 27, 61, 33, 33], b"A"), [place(2, 2)]);
    // with the key line mode 1's right half begins seven lines on
    assert_eq!(place_of(&[27, 211, 0, 27, 208, 1, 16, 27, 61, 39, 32], b"A"), [place(1, 42)]);
    // a screen of one column, line after line
    assert_eq!(place_of(&[27, 208, 2, 8, 1, 35], b"AB"), [place(1, 1), place(2, 1)]);
}

#[test]
fn secret_shows_blanks() {
    let secret = Settings { secret: 1, ..OPENING };
    let mut session = stale_with(secret);
    session.short(b"AB", 0);
    assert_eq!((&session.cells[..2], &session.shown[..3]), (&b"AB"[..], &[32, 32, 88][..]));
}

#[test]
fn a_mark_on_the_printed_place_goes() {
    let mut session = Session::open();
    session.play(&[27, 210, 1, 1, 42, 27, 210, 1, 2, 43], 0);
    session.short(b"A", 0);
    assert_eq!(session.shown[..3], [65, 43, 32]);
    assert!(all_true(&session));
}

// ---- the message call, and the numbers ----

/// From a glass that is true the two calls leave the same, whatever is read.
#[test]
fn as_a_message_from_a_true_glass() {
    let (mut one, mut other) = (Session::open(), Session::open());
    let text: Vec<u8> = (0..4000u32).map(|at| (at * at + at / 7) as u8).collect();
    for message in text.chunks(9) {
        assert_eq!(one.play(message, COPY), other.short(message, COPY));
        assert_eq!(one.text(), other.text());
    }
    assert!(one.printed == other.printed && one.shown == other.shown);
}

fn refused_on(settings: Settings, bytes: &[u8], sizes: [usize; 4]) -> u8 {
    let mut stores = sizes.map(|size| vec![9; size]);
    let [cells, layer, shown, dots] = &mut stores;
    let mut printer = [7; COPY];
    let (after, answer) = message_short(settings, bytes, cells, layer, shown, dots, &mut printer);
    if answer.number != 0 {
        assert_eq!((after, answer), (settings, Answer { number: answer.number, ..Answer::default() }));
        assert!(stores.iter().flatten().all(|&byte| byte == 9) && printer == [7; COPY]);
    }
    answer.number
}

#[test]
fn the_messages_numbers_in_its_order() {
    const SIZES: [usize; 4] = [CELLS, LAYER, SHOWN, DOTS];
    let unsound = Settings { step: 0, ..OPENING };
    let mut waits = Settings { held: 1, count: 1, ..OPENING };
    waits.waiting[0] = 27;
    for store in 0..4 {
        for size in [0, SIZES[store] - 1, SIZES[store] + 1] {
            let mut sizes = SIZES;
            sizes[store] = size;
            assert_eq!(refused_on(unsound, &[65; 4097], sizes), 1);
        }
    }
    assert_eq!(refused_on(unsound, &[65; 4097], SIZES), 2);
    assert_eq!(refused_on(waits, &[65; 4097], SIZES), 2);
    assert_eq!(refused_on(Settings { step: 0, ..waits }, &[], SIZES), 3);
    assert_eq!(refused_on(waits, &[], SIZES), 16);
    assert_eq!(refused_on(OPENING, &[65; 4096], SIZES), 0);
}

#[test]
fn a_short_message_leaves_the_count() {
    let mut session = Session::open();
    session.piece(b"abc", 0);
    assert_eq!(session.short(&[65, 27], 0).first, 12);
    assert_eq!((session.settings.count, session.settings.held), (3, 0));
}

#[test]
fn in_a_recording() {
    let recording = [&[2, 0, 6, 0, 65, 27][..], &[0, 0, 6, 0], &[0, 0, 9, 0]].concat();
    let text = replay(&recording);
    let lines: Vec<&str> = text.lines().take(3).collect();
    let expected = [
        "1 answer 0 taken 2 accepted 0 refused 1 first 12 at 1 printed 0 parameter 0",
        "2 answer 0 taken 0 accepted 0 refused 0 first 0 at 0 printed 0 parameter 0",
        "3 bad record",
    ];
    assert_eq!(lines, expected);
}
