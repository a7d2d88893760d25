//! Document 01's examples, its mistakes to exclude, every refusal, and the
//! manual's own examples.

use reference::picture::{cursor_place, place, source, Source};
use reference::settings::{CELLS, DOTS, LAYER, MARKS, OPENING, SHOWN};
use reference::text::{replay, show, Session};
use reference::{message, opening, picture, printed, sound, Answer, Settings};

/// Plays one message from the opening, with room for one copy.
fn play(bytes: &[u8]) -> (Session, Answer) {
    let mut session = Session::open();
    let answer = session.play(bytes, 656);
    (session, answer)
}

fn first(bytes: &[u8]) -> (u8, u32, u32) {
    let answer = play(bytes).1;
    assert_eq!(answer.number, 0);
    assert_eq!(answer.taken as usize, bytes.len());
    (answer.first, answer.accepted, answer.refused)
}

const ACCEPTED: (u8, u32, u32) = (0, 1, 0);

fn refused_by(number: u8) -> (u8, u32, u32) {
    (number, 0, 1)
}

fn shown(session: &Session, row: usize, column: usize) -> u8 {
    session.shown[place(row, column)]
}

fn cursor(session: &Session) -> (u8, u8, u8) {
    let here = session.settings.places[usize::from(session.settings.selected)];
    (here.line, here.column, here.top)
}

// ---- the bays' examples ----

#[test]
fn empty_message() {
    let (session, answer) = play(&[]);
    assert_eq!(answer, Answer::default());
    assert!(session.shown.iter().all(|&code| code == 32));
}

#[test]
fn one_printed_byte() {
    let (session, _) = play(&[65]);
    assert_eq!(shown(&session, 1, 1), 65);
    assert_eq!(cursor(&session), (1, 2, 1));
}

#[test]
fn eighty_printed_bytes() {
    assert_eq!(cursor(&play(&[66; 80]).0), (2, 1, 1));
}

#[test]
fn line_steps() {
    assert_eq!(cursor(&play(&[10; 10]).0), (11, 1, 4));
    let mut message = vec![65];
    message.extend([10; 24]);
    let (session, _) = play(&message);
    assert_eq!(cursor(&session), (24, 2, 17));
    // one lift: the first line is gone, and only it
    assert!(session.cells.iter().all(|&code| code == 32));
    let mut second = vec![10, 65];
    second.extend([10; 23]);
    assert_eq!(play(&second).0.cells[0], 65);
}

#[test]
fn cursor_placing() {
    assert_eq!(cursor(&play(&[27, 61, 43, 32]).0), (12, 1, 8));
    assert_eq!(first(&[27, 61, 56, 32]), refused_by(11));
    assert_eq!(first(&[27, 61, 55, 111]), ACCEPTED);
}

#[test]
fn mode_setting() {
    assert_eq!(first(&[27, 208, 0, 24, 25]), refused_by(11));
    assert_eq!(first(&[27, 208, 0, 24, 24]), ACCEPTED);
    assert_eq!(first(&[27, 208, 0, 7, 24]), refused_by(11));
    let (session, _) = play(&[27, 208, 2, 10, 20, 35]);
    assert_eq!((session.settings.columns1, session.settings.columns2), (20, 59));
    for row in 1..=8 {
        assert_eq!(shown(&session, row, 21), 35);
    }
}

#[test]
fn scrolling_ranges() {
    assert_eq!(first(&[27, 144, 1, 24]), refused_by(11));
    assert_eq!(first(&[27, 144, 0, 24]), ACCEPTED);
    assert_eq!(first(&[27, 144, 0, 0]), refused_by(11));
}

#[test]
fn short_selection() {
    assert_eq!(first(&[27, 209]), ACCEPTED);
    let answer = play(&[27, 209, 65]).1;
    assert_eq!((answer.first, answer.taken, answer.refused), (11, 3, 1));
}

#[test]
fn lone_escape() {
    let answer = play(&[27]).1;
    assert_eq!((answer.first, answer.taken, answer.refused), (12, 1, 1));
}

#[test]
fn steps_of_the_window() {
    let mut session = Session::open();
    session.play(&[27, 148, 8], 656);
    let tops = [(); 3].map(|_| {
        session.play(&[27, 151], 656);
        cursor(&session).2
    });
    assert_eq!(tops, [9, 17, 17]);
}

#[test]
fn copy_and_its_room() {
    let mut session = Session::open();
    assert_eq!(session.play(&[65, 27, 80], 655).first, 13);
    let answer = session.play(&[27, 80], 656);
    assert_eq!((answer.first, answer.printed), (0, 656));
    let mut row = vec![65];
    row.extend([32; 79]);
    row.extend([13, 10]);
    assert_eq!(&session.printed[..82], &row[..]);
}

#[test]
fn show_sample() {
    let sample = "answer 0 taken 4 accepted 0 refused 1 first 10 at 1\n1 AB\n2\n3\n4\n5\n6\n7\n8\n";
    assert_eq!(show(&[65, 27, 27, 66]), sample);
}

#[test]
fn show_of_a_long_message() {
    let text = "answer 2 taken 0 accepted 0 refused 0 first 0 at 0\n1\n2\n3\n4\n5\n6\n7\n8\n";
    assert_eq!(show(&[65; 4097]), text);
}

// ---- mistakes to exclude ----

#[test]
fn escape_in_a_parameter() {
    let (session, answer) = play(&[27, 37, 27]);
    assert_eq!((session.cells[0], answer.accepted, answer.refused), (27, 1, 0));
}

#[test]
fn window_after_213() {
    let (session, _) = play(&[27, 213]);
    assert_eq!(cursor(&session).2, 17);
    assert!(sound(&session.settings));
}

/// Lines A, B, C, ... of a screen of eight lines, one letter each.
fn lettered(sequence: &[u8]) -> Vec<u8> {
    let mut message = vec![27, 208, 0, 8, 40];
    message.extend(b"A\r\nB\r\nC\r\nD\r\nE\r\nF\r\nG\r\nH");
    message.extend(sequence);
    let session = play(&message).0;
    (1..=8).map(|row| shown(&session, row, 1)).collect()
}

#[test]
fn scrolled_region_is_m_lines() {
    assert_eq!(lettered(&[27, 144, 1, 4]), b"ACDE FGH");
    assert_eq!(lettered(&[27, 145, 1, 4]), b"A BCDFGH");
    assert_eq!(lettered(&[27, 144, 7, 1]), b"ABCDEFG ");
    assert_eq!(lettered(&[27, 145, 0, 8]), b" ABCDEFG");
}

#[test]
fn secret_hides_the_layer() {
    let (session, _) = play(&[27, 210, 3, 4, 88, 27, 123]);
    assert!(session.shown.iter().all(|&code| code == 32));
    assert_eq!(session.layer[place(3, 4)], 1);
    assert_eq!(session.layer[MARKS + place(3, 4)], 88);
}

#[test]
fn refused_208_blanks_nothing() {
    for bad in
        [&[27, 208, 4][..], &[27, 208, 9], &[27, 208, 1, 15], &[27, 208, 2, 8, 79, 1], &[27, 208, 0, 8]]
    {
        let mut message = vec![65];
        message.extend(bad);
        let (session, answer) = play(&message);
        assert_eq!((shown(&session, 1, 1), answer.refused), (65, 1));
    }
}

// ---- refusals ----

/// Calls `message` on stores of the given sizes; nothing may be altered.
fn refused_call(settings: Settings, bytes: &[u8], sizes: [usize; 4]) -> u8 {
    let mut stores = sizes.map(|size| (0..size).map(|at| at as u8).collect::<Vec<u8>>());
    let before = stores.clone();
    let mut printer = [7; 1312];
    let [cells, layer, shown, dots] = &mut stores;
    let (after, answer) = message(settings, bytes, cells, layer, shown, dots, &mut printer);
    if answer.number != 0 {
        assert_eq!(after, settings);
        assert_eq!(stores, before);
        assert_eq!(printer, [7; 1312]);
        assert_eq!(answer, Answer { number: answer.number, ..Answer::default() });
    }
    answer.number
}

const SIZES: [usize; 4] = [CELLS, LAYER, SHOWN, DOTS];

#[test]
fn calls_are_checked_in_order() {
    let unsound = Settings { mode: 3, ..OPENING };
    let copy = [27, 80];
    for store in 0..4 {
        for size in [0, SIZES[store] - 1, SIZES[store] + 1] {
            let mut sizes = SIZES;
            sizes[store] = size;
            assert_eq!(refused_call(unsound, &[65; 4097], sizes), 1);
            assert_eq!(refused_call(OPENING, &copy, sizes), 1);
        }
    }
    assert_eq!(refused_call(unsound, &[65; 4097], SIZES), 2);
    assert_eq!(refused_call(OPENING, &[65; 4097], SIZES), 2);
    assert_eq!(refused_call(unsound, &copy, SIZES), 3);
    assert_eq!(refused_call(OPENING, &[65; 4096], SIZES), 0);
}

#[test]
fn refused_opening() {
    let wrong =
        [[3839, 1280, 640, 3840], [3840, 1281, 640, 3840], [3840, 1280, 0, 3840], [3840, 1280, 640, 3839]];
    for sizes in wrong {
        let mut stores = sizes.map(|size| vec![9; size]);
        let [cells, layer, shown, dots] = &mut stores;
        assert_eq!(opening(1, cells, layer, shown, dots), (OPENING, 1));
        assert!(stores.iter().flatten().all(|&byte| byte == 9));
    }
}

#[test]
fn accepted_opening() {
    let [mut cells, mut layer, mut shown, mut dots] = SIZES.map(|size| vec![9; size]);
    assert_eq!(opening(1, &mut cells, &mut layer, &mut shown, &mut dots), (OPENING, 0));
    assert!(cells.iter().chain(&shown).all(|&byte| byte == 32));
    assert!(layer.iter().chain(&dots).all(|&byte| byte == 0));
}

#[test]
fn refused_sequences() {
    // 10 comes first: a byte not in the list, also at the very end
    assert_eq!(first(&[27, 36]), refused_by(10));
    assert_eq!(first(&[27, 0]), refused_by(10));
    // 12 before 11: a bad parameter in a cut sequence
    for cut in [&[27, 208][..], &[27, 208, 2, 99], &[27, 61, 0], &[27, 224, 1, 0], &[27, 198, 1]] {
        assert_eq!(first(cut), refused_by(12));
    }
    assert_eq!(first(&[27, 208, 9]), refused_by(11));
    // the rest after a refusal is read on
    let (session, answer) = play(&[27, 208, 9, 65, 27, 67, 90, 66, 27, 1]);
    assert_eq!((answer.first, answer.offset, answer.refused), (11, 0, 3));
    assert_eq!(&session.cells[..3], b"AB ");
}

#[test]
fn third_copy_has_no_room() {
    let mut session = Session::open();
    let answer = session.play(&[27, 80, 65, 27, 80, 27, 80], 1312);
    assert_eq!((answer.first, answer.offset, answer.printed), (13, 5, 1312));
    assert_eq!((answer.accepted, answer.refused), (2, 1));
    assert_eq!((session.printed[0], session.printed[656]), (32, 65));
}

#[test]
fn printer_bytes_beyond_the_copy() {
    let mut session = Session::open();
    let mut printer = [7; 700];
    let Session { cells, layer, shown, dots, .. } = &mut session;
    message(OPENING, &[27, 37, 5, 27, 80], cells, layer, shown, dots, &mut printer);
    assert_eq!(printer[0], 32);
    assert!(printer[656..].iter().all(|&byte| byte == 7));
}

#[test]
fn printer_call() {
    let buffer = [1, 2, 3];
    assert_eq!(printed(&buffer, 2), &[1, 2]);
    assert_eq!(printed(&buffer, 3).as_ptr(), buffer.as_ptr());
    assert!(printed(&buffer, 4).is_empty());
    assert!(printed(&buffer, 0).is_empty());
}

#[rustfmt::skip]
#[test]
fn unsound_settings() {
    let broken: [fn(&mut Settings); 28] = [
        |s| s.mode = 3, |s| s.mode = 1, |s| s.lines1 = 7, |s| s.lines2 = 25, |s| s.lines1 = 255,
        |s| s.columns1 = 79, |s| s.columns2 = 81, |s| s.selected = 2, |s| s.places[0].line = 0,
        |s| s.places[1].line = 25, |s| s.places[0].column = 81, |s| s.places[1].column = 0,
        |s| s.places[0].top = 18, |s| s.places[1].top = 0, |s| s.tracking = 2, |s| s.step = 0,
        |s| s.step = 9, |s| s.secret = 2, |s| s.cursor = 2, |s| s.display = 2, |s| s.kind = 4,
        |s| s.keys.leds[2] = 2, |s| s.keys.charset = b'u', |s| s.keys.strings = 2,
        |s| s.keys.repeat = 2, |s| s.keys.delay = 0, |s| s.keys.interval = 128,
        |s| s.keys.shift = 8,
    ];
    for change in broken {
        let mut settings = OPENING;
        change(&mut settings);
        assert!(!sound(&settings));
        assert_eq!(refused_call(settings, &[65], SIZES), 3);
    }
    let free = Settings { boundary: 255, patterns: [255; 248], ..OPENING };
    assert!(sound(&free));
}

// ---- the manual's examples ----

#[test]
fn manual_sequences() {
    // the cursor off and on from the command line
    assert_eq!(play(&[27, 50]).0.settings.cursor, 0);
    assert_eq!(play(&[27, 50, 27, 51]).0.settings.cursor, 1);
    // CONOUT: the cursor to non-flashing
    assert_eq!(play(&[0x1b, 0xd6, 0x01]).0.settings.kind, 1);
    // a line drawn in mode 3: no operation here
    let line = [27, 198, 1, 144, 0, 18, 0, 18, 0, 18, 170, 170, 2];
    let (session, answer) = play(&line);
    assert_eq!((answer.accepted, answer.taken), (1, 13));
    assert!(session.cells.iter().all(|&code| code == 32));
    assert_eq!(session.settings, OPENING);
}

#[test]
fn manual_pattern() {
    let (session, answer) = play(&[27, 224, 230, 12, 12, 30, 63, 12, 18, 0, 0]);
    assert_eq!(answer.accepted, 1);
    assert_eq!(&session.settings.patterns[48..56], &[12, 12, 30, 63, 12, 18, 0, 0]);
    assert_eq!(session.settings.patterns.iter().filter(|&&row| row != 0).count(), 6);
}

#[test]
fn manual_character_sets() {
    for letter in *b"UFGEDWISN" {
        assert_eq!(play(&[27, 67, letter]).0.settings.keys.charset, letter);
    }
}

// ---- layer and tracking ----

#[test]
fn what_empties_the_layer() {
    let mark: [u8; 5] = [27, 210, 8, 80, 42];
    let kept: [&[u8]; 8] =
        [&[65], &[10], &[27, 150], &[27, 212], &[27, 215], &[27, 61, 32, 111], &[27, 50], &[27, 37, 0]];
    let emptied: [&[u8]; 9] = [
        &[27, 42],
        &[12],
        &[27, 84],
        &[27, 89],
        &[27, 144, 0, 1],
        &[27, 145, 0, 1],
        &[27, 209, 0],
        &[27, 151],
        &[27, 61, 40, 32],
    ];
    for (sequences, left) in [(&kept[..], 42), (&emptied[..], 32)] {
        for sequence in sequences {
            let bytes = [&mark[..], sequence].concat();
            assert_eq!(shown(&play(&bytes).0, 8, 80), left, "{sequence:?}");
        }
    }
}

#[test]
fn printing_empties_its_place_under_secret() {
    let (session, _) = play(&[27, 210, 1, 1, 42, 27, 210, 1, 2, 42, 27, 123, 65, 27, 125]);
    assert_eq!((shown(&session, 1, 1), shown(&session, 1, 2)), (65, 42));
    assert_eq!(session.layer[MARKS], 0);
}

/// Every cursor of a screen: where the picture shows its cell, by search.
fn search_cursor_places(mut settings: Settings, screen: usize) {
    settings.selected = screen as u8;
    settings.places[screen].top = settings.greatest_top(screen).min(3) as u8;
    for line in 1..=settings.lines(screen) {
        for column in 1..=settings.columns(screen) {
            settings.places[screen].line = line as u8;
            settings.places[screen].column = column as u8;
            let wanted = Source::Cell { screen, line, column };
            let found = (0..640).find(|at| source(&settings, at / 80 + 1, at % 80 + 1) == wanted);
            assert_eq!(cursor_place(&settings), found);
        }
    }
}

#[test]
fn cursor_place_is_the_pictures() {
    let modes: [&[u8]; 5] = [
        &[27, 208, 0, 8, 40],
        &[27, 208, 1, 20],
        &[27, 208, 2, 12, 30, 35],
        &[27, 208, 2, 48, 1, 35],
        &[27, 208, 3],
    ];
    for mode in modes {
        let settings = play(mode).0.settings;
        for screen in 0..settings.screens() {
            search_cursor_places(settings, screen);
        }
    }
}

#[test]
fn shown_is_the_picture() {
    let (session, _) = play(&[27, 208, 1, 16, 65, 10, 66, 27, 210, 1, 5, 67]);
    for row in 1..=8 {
        for column in 1..=80 {
            let code = picture(&session.settings, &session.cells, &session.layer, row, column);
            assert_eq!(shown(&session, row, column), code);
        }
    }
}

// ---- replay ----

fn record(kind: u16, body: &[u8]) -> Vec<u8> {
    let mut bytes = (body.len() as u16).to_le_bytes().to_vec();
    bytes.extend(kind.to_le_bytes());
    bytes.extend(body);
    bytes
}

#[test]
fn replay_of_good_records() {
    let text = replay(&[record(1, b"AB"), record(1, &[27, 80, 27, 80, 27, 80])].concat());
    let lines: Vec<&str> = text.lines().collect();
    assert_eq!(lines[0], "1 answer 0 taken 2 accepted 0 refused 0 first 0 at 0 printed 0 parameter 0");
    assert_eq!(lines[1], "2 answer 0 taken 6 accepted 2 refused 1 first 13 at 4 printed 1312 parameter 0");
    assert_eq!(lines[2], "mode 0 lines 24 24 columns 80 80 selected 1");
    assert_eq!(lines[3], "screen 1 line 1 column 3 top 1");
    assert_eq!(lines[5], "tracking 1 step 1 cursor 1 type 0 boundary 32 secret 0 leds 0 0 0 set 85");
    assert_eq!(lines[6], "strings 1 display 1 repeat 1 32 16 shift 0");
    assert_eq!(lines[7], "arrows 0 0 0 0 0 0 0 0 0 0 0 0");
    assert_eq!(lines[8], "stream count 0 waiting");
    assert_eq!(lines[9..12], ["runs 1", "runs 2", "rule 1 flags 0 0"]);
    assert!(lines[12].starts_with("sums cells "));
    assert_eq!((lines[13], lines.len()), ("1 AB", 21));
}

#[test]
fn replay_of_bad_records() {
    let cut = [record(1, b"A"), vec![2, 0, 1, 0, 66]].concat();
    let head = [record(1, b"A"), vec![2, 0]].concat();
    let unknown = [record(1, b"A"), record(9, b"B"), record(1, b"C")].concat();
    let closing = [record(1, b"A"), record(3, b"B"), record(1, b"C")].concat();
    for recording in [cut, head, unknown, closing] {
        let text = replay(&recording);
        assert_eq!(text.lines().nth(1), Some("2 bad record"));
        assert!(text.contains("\n1 A\n2\n"));
    }
}

/// "The recording may have up to 1,000,000 bytes"
#[test]
fn replay_of_a_long_recording() {
    let long = |last: usize| {
        let mut recording = record(1, b"A");
        for _ in 0..16 {
            recording.extend(record(1, &[66; 60_000]));
        }
        recording.extend(record(1, &vec![66; last]));
        recording
    };
    let full = long(39_927);
    assert_eq!(full.len(), 1_000_000);
    assert!(replay(&full).contains("18 answer 2 taken 0"));
    assert!(replay(&long(39_928)).contains("18 bad record"));
}
