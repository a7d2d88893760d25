//! Document 02, P1: its examples and its refusals, from the opening.

use reference::settings::{CELLS, DOTS, LAYER, OPENING, SHOWN};
use reference::stream::{unfinished, waits};
use reference::text::{replay, rows, Session};
use reference::{closing, piece, sound, Answer, Settings};

const ROOM: usize = 1312;
const BILLION: u32 = 1_000_000_000;

/// Settings with these bytes waiting, padded with zeros.
fn waiting(bytes: &[u8], count: u32) -> Settings {
    let mut settings = Settings { held: bytes.len() as u8, count, ..OPENING };
    settings.waiting[..bytes.len()].copy_from_slice(bytes);
    settings
}

fn session(settings: Settings) -> Session {
    Session { settings, ..Session::open() }
}

fn first(answer: &Answer) -> (u8, u32) {
    assert_eq!(answer.number, 0);
    (answer.first, answer.offset)
}

#[test]
fn an_escape_that_waits() {
    let mut session = Session::open();
    let first_piece = session.piece(&[65, 27], ROOM);
    assert_eq!((first_piece.taken, first_piece.refused), (2, 0));
    assert_eq!((waits(&session.settings), session.settings.count), (&[27][..], 2));
    let second = session.piece(&[27, 66], ROOM);
    assert_eq!((second.taken, first(&second), second.refused), (2, (10, 1), 1));
    assert_eq!(&session.cells[..3], b"AB ");
    let last = session.closing();
    assert_eq!(last, Answer::default());
    assert_eq!((session.settings.held, session.settings.count), (0, 0));
}

#[test]
fn a_selection_waits_for_its_byte() {
    let mut session = Session::open();
    let answer = session.piece(&[65, 65, 65, 65, 65, 27, 209], ROOM);
    assert_eq!((answer.accepted, answer.taken, session.settings.count), (0, 7, 7));
    assert_eq!(session.play(&[65], ROOM), Answer { number: 16, ..Answer::default() });
    let bad = session.piece(&[27], ROOM);
    assert_eq!((first(&bad), bad.parameter, bad.taken), ((11, 5), 1, 1));
    assert_eq!((session.settings.held, session.settings.count), (0, 8));
}

#[test]
fn closing_means_screen_1() {
    let mut session = Session::open();
    session.play(&[27, 209, 1], ROOM);
    session.piece(&[27, 209], ROOM);
    assert_eq!(session.settings.selected, 1);
    let answer = session.closing();
    assert_eq!((answer.accepted, answer.taken, session.settings.selected), (1, 0, 0));
}

#[test]
fn offsets_count_from_the_streams_start() {
    let mut session = Session::open();
    session.piece(&[65; 4096], ROOM);
    assert_eq!(session.piece(&[27, 61], ROOM).refused, 0);
    assert_eq!(first(&session.piece(&[99, 32], ROOM)), (11, 4096));
    // a pattern whose rows come in two pieces
    let mut session = Session::open();
    session.piece(&[27, 224, 224, 1, 2, 3], ROOM);
    assert_eq!(first(&session.piece(&[4, 5, 6, 7, 8, 27, 99], ROOM)), (10, 11));
    assert_eq!(session.settings.patterns[..8], [1, 2, 3, 4, 5, 6, 7, 8]);
}

/// "13 is judged by the room of the call that brings the 80."
#[test]
fn room_of_the_call_that_finishes() {
    let mut session = Session::open();
    let one = session.piece(&[27, 80, 27], 656);
    assert_eq!((one.accepted, one.printed), (1, 656));
    let two = session.piece(&[80], 655);
    assert_eq!((first(&two), two.printed), ((13, 2), 0));
}

#[test]
fn the_counts_limit() {
    let near = Settings { count: BILLION - 1, ..OPENING };
    let mut session = session(near);
    assert_eq!(session.piece(&[65, 66], ROOM), Answer { number: 15, ..Answer::default() });
    assert_eq!(session.settings, near);
    assert_eq!(session.piece(&[27], ROOM).number, 0);
    assert_eq!(session.piece(&[80], ROOM).number, 15);
    assert_eq!(session.piece(&[], ROOM).number, 0);
    assert_eq!(first(&session.closing()), (12, BILLION - 1));
    assert_eq!(session.settings, OPENING);
}

#[test]
fn a_message_between_leaves_the_count() {
    let mut session = Session::open();
    session.piece(&[65], ROOM);
    assert_eq!(first(&session.play(&[66, 27], ROOM)), (12, 1));
    assert_eq!((session.settings.count, session.settings.held), (1, 0));
    session.piece(&[27], ROOM);
    let last = session.closing();
    assert_eq!((first(&last), last.taken, last.refused), ((12, 1), 0, 1));
}

#[test]
fn unsound_streams() {
    let mut dirty = waiting(&[27, 61], 9);
    dirty.waiting[2] = 1;
    let mut past = waiting(&[27, 198, 1, 1, 1, 1, 1, 1, 1, 1, 1, 1], 99);
    assert!(sound(&past));
    past.held = 13;
    let bad = [
        waiting(&[27], 0),
        waiting(&[27, 208, 9], 9),
        waiting(&[27, 208, 3], 9),
        waiting(&[65], 9),
        waiting(&[27, 27], 9),
        waiting(&[27, 80], 9),
        waiting(&[27, 99], 9),
        waiting(&[27, 61, 32, 32], 9),
        waiting(&[], BILLION + 1),
        dirty,
        past,
    ];
    for settings in bad {
        assert!(!sound(&settings), "{:?}", settings.waiting);
        let refused = Answer { number: 3, ..Answer::default() };
        assert_eq!(session(settings).play(&[65], ROOM), refused);
        assert_eq!(session(settings).piece(&[65], ROOM), refused);
        assert_eq!(session(settings).closing(), refused);
    }
    let good: [&[u8]; 6] = [&[], &[27], &[27, 209], &[27, 208, 2, 99, 99], &[27, 208], &[27, 61, 255]];
    for bytes in good {
        assert!(sound(&waiting(bytes, bytes.len() as u32)), "{bytes:?}");
    }
}

/// The longest that waits is 27, 198 and ten parameters.
#[test]
fn what_is_unfinished() {
    for second in 0..=255 {
        let longest = (1..=20).rev().find(|&length| {
            let bytes: Vec<u8> = [27, second].into_iter().chain([0; 18]).take(length).collect();
            unfinished(&bytes)
        });
        let whole = reference::read::length(second, Some(0)).unwrap_or(2);
        assert_eq!(longest, Some(whole - 1));
        assert!(whole <= 13);
    }
}

#[test]
fn refusals_in_their_order() {
    let unsound = Settings { step: 0, count: BILLION, ..OPENING };
    let full = Settings { count: BILLION, ..OPENING };
    let play = |settings: Settings, bytes: &[u8], cells: usize| {
        let mut stores = [cells, LAYER, SHOWN, DOTS].map(|size| vec![9; size]);
        let [cells, layer, shown, dots] = &mut stores;
        let mut printer = [7; ROOM];
        let (after, answer) = piece(settings, bytes, cells, layer, shown, dots, &mut printer);
        assert_eq!((after, answer), (settings, Answer { number: answer.number, ..Answer::default() }));
        assert!(stores.iter().flatten().all(|&byte| byte == 9));
        assert_eq!(printer, [7; ROOM]);
        answer.number
    };
    assert_eq!(play(unsound, &[65; 4097], CELLS + 1), 1);
    assert_eq!(play(unsound, &[65; 4097], CELLS), 2);
    assert_eq!(play(unsound, &[65], CELLS), 3);
    assert_eq!(play(full, &[65], CELLS), 15);
    for wrong in [[CELLS, LAYER - 1, SHOWN, DOTS], [CELLS, LAYER, SHOWN, DOTS + 1]] {
        let [mut cells, mut layer, mut shown, mut dots] = wrong.map(|size| vec![9; size]);
        let (after, answer) = closing(unsound, &mut cells, &mut layer, &mut shown, &mut dots);
        assert_eq!((after, answer.number), (unsound, 1));
    }
    assert_eq!(session(unsound).closing().number, 3);
    // 3 before 16
    assert_eq!(session(Settings { step: 0, ..waiting(&[27], 1) }).play(&[65], ROOM).number, 3);
}

#[test]
fn pieces_and_closings_paint() {
    let mut session = Session::open();
    session.shown.fill(1);
    session.piece(&[], ROOM);
    assert!(session.shown.iter().all(|&code| code == 32));
    session.shown.fill(1);
    session.closing();
    assert!(session.shown.iter().all(|&code| code == 32));
}

#[test]
fn a_mode_setting_keeps_the_stream() {
    let mut session = Session::open();
    session.piece(&[27, 208, 1, 16, 27], ROOM);
    assert_eq!((session.settings.mode, waits(&session.settings), session.settings.count), (1, &[27][..], 5));
}

#[test]
fn words_of_a_replayed_stream() {
    let recording =
        [2, 0, 2, 0, 65, 27, 1, 0, 1, 0, 66, 4, 0, 2, 0, 27, 66, 27, 61, 0, 0, 3, 0, 1, 0, 2, 0, 27];
    let text = replay(&recording);
    let lines: Vec<&str> = text.lines().collect();
    assert_eq!(lines[0], "1 answer 0 taken 2 accepted 0 refused 0 first 0 at 0 printed 0 parameter 0");
    assert_eq!(lines[1], "2 answer 16 taken 0 accepted 0 refused 0 first 0 at 0 printed 0 parameter 0");
    assert_eq!(lines[2], "3 answer 0 taken 4 accepted 0 refused 1 first 10 at 1 printed 0 parameter 0");
    assert_eq!(lines[3], "4 answer 0 taken 0 accepted 0 refused 1 first 12 at 4 printed 0 parameter 0");
    assert_eq!(lines[4], "5 answer 0 taken 1 accepted 0 refused 0 first 0 at 0 printed 0 parameter 0");
    assert_eq!(lines[11], "stream count 1 waiting 27");
}

/// The example in C, `c/serial.c`, prints what one reading of its line gives.
#[test]
fn the_serial_example() {
    let folder = concat!(env!("CARGO_MANIFEST_DIR"), "/../../c");
    let line = std::fs::read(format!("{folder}/serial.in")).unwrap();
    let mut session = Session::open();
    let Answer { taken, accepted, refused, first, offset, parameter, .. } = session.play(&line, ROOM);
    let copies = session.printed.chunks(82).map(|row| std::str::from_utf8(&row[..80]).unwrap());
    let copies: String = copies.map(|row| format!("printer |{row}|\n")).collect();
    let counts = format!(
        "taken {taken} accepted {accepted} refused {refused} first {first} at {offset} parameter {parameter}\n"
    );
    let expected = std::fs::read_to_string(format!("{folder}/serial.out")).unwrap();
    assert_eq!(copies + &counts + &rows(&session.shown), expected);
}
