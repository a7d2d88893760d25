//! Document 02, P11: mode 3. Its examples, which dots a line has, what touches
//! dots and what does not, the sequences that are idle, soundness, and the words of
//! the programs.

use reference::dots::{is_on, line, Dot};
use reference::settings::{COPY, DOTS, HOME, OPENING};
use reference::text::{image, replay, Session};
use reference::{key_text, sound, Answer, Place, Settings};

const MODE_3: &[u8] = &[27, 208, 3];
const WHITE: [u8; 11] = [0, 0, 0, 0, 0, 0, 0, 0, 255, 255, 2];

/// A terminal in mode 3, and these bytes taken without a refusal.
fn play(bytes: &[u8]) -> Session {
    let mut session = Session::open();
    let answer = session.play(&[MODE_3, bytes].concat(), DOTS);
    assert_eq!((answer.number, answer.refused), (0, 0), "{bytes:?}");
    session
}

/// The first refusal of these bytes in mode 3, and its parameter; no dot moves.
fn refused(bytes: &[u8]) -> (u8, u8) {
    let mut session = play(&[&drawn(2)[..], &[27, 199, 0, 7, 0, 7]].concat());
    let before = session.dots.clone();
    let answer = session.play(bytes, 0);
    assert_eq!(session.dots, before);
    (answer.first, answer.parameter)
}

/// From one corner to the other, all dots by this function.
fn drawn(function: u8) -> [u8; 13] {
    [27, 198, 0, 0, 0, 0, 1, 223, 0, 63, 255, 255, function]
}

fn dot(horizontal: usize, vertical: usize) -> Dot {
    Dot { horizontal, vertical }
}

/// Every byte that is not 0, with its place.
fn filled(session: &Session) -> Vec<(usize, u8)> {
    session.dots.iter().copied().enumerate().filter(|(_, byte)| *byte != 0).collect()
}

// ---- the request's examples ----

#[test]
fn single_dots() {
    assert_eq!(filled(&play(&[27, 199, 1, 0, 0, 0])), [(0, 128)]);
    assert_eq!(filled(&play(&[27, 199, 1, 63, 1, 223])), [(3839, 1)]);
    assert_eq!(refused(&[27, 199, 1, 0, 1, 224]), (11, 4));
    assert_eq!(refused(&[27, 199, 2, 64, 2, 0]), (11, 1));
    assert_eq!(refused(&[27, 199, 1, 64, 2, 0]), (11, 2));
}

#[test]
fn the_manuals_line() {
    let session = play(&[27, 198, 1, 144, 0, 18, 0, 18, 0, 18, 170, 170, 2]);
    assert_eq!(session.dots.iter().map(|byte| byte.count_ones()).sum::<u32>(), 192);
    assert_eq!((session.dots[1082], session.dots[1130]), (42, 128));
    assert!(session.dots[1083..=1129].iter().all(|&byte| byte == 170));
}

#[test]
fn rounded_from_the_start() {
    assert_eq!(filled(&play(&[27, 198, 0, 0, 0, 0, 0, 2, 0, 1, 255, 255, 2])), [(0, 128), (60, 96)]);
    assert_eq!(filled(&play(&[27, 198, 0, 2, 0, 1, 0, 0, 0, 0, 255, 255, 2])), [(0, 192), (60, 32)]);
}

#[test]
fn a_line_of_one_dot() {
    let one = |mask: [u8; 2], function| [27, 198, 0, 5, 0, 5, 0, 5, 0, 5, mask[0], mask[1], function];
    assert_eq!(filled(&play(&one([128, 0], 3))), [(300, 4)]);
    assert_eq!(filled(&play(&[one([128, 0], 3), one([128, 0], 3)].concat())), []);
    assert_eq!(filled(&play(&one([127, 255], 3))), []);
}

#[test]
fn the_masks_second_byte() {
    assert_eq!(filled(&play(&[27, 198, 0, 0, 0, 0, 0, 0, 0, 9, 0, 128, 2])), [(480, 128)]);
}

#[test]
fn bad_lines() {
    let bad = |at: usize, bytes: &[u8]| {
        let mut parameters = WHITE;
        parameters[at - 1..at - 1 + bytes.len()].copy_from_slice(bytes);
        refused(&[&[27, 198], &parameters[..]].concat())
    };
    assert_eq!(bad(1, &[1, 224]), (11, 2));
    assert_eq!(bad(1, &[2, 0]), (11, 2));
    assert_eq!(bad(3, &[1, 0]), (11, 4));
    assert_eq!(bad(3, &[0, 64]), (11, 4));
    assert_eq!(bad(5, &[1, 224]), (11, 6));
    assert_eq!(bad(7, &[0, 64]), (11, 8));
    assert_eq!(bad(7, &[1, 0]), (11, 8));
    assert_eq!(bad(11, &[0]), (11, 11));
    assert_eq!(bad(11, &[4]), (11, 11));
    assert_eq!(bad(4, &[64, 2, 0, 9, 9, 0, 0, 9]), (11, 4));
    assert_eq!(bad(6, &[0]), (0, 0));
}

#[test]
fn a_mark_and_an_idle_selection() {
    let mut session = play(&[]);
    let answer = session.play(&[27, 210, 1, 1, 90, 27, 209, 7], 0);
    assert_eq!((answer.accepted, answer.refused, session.shown[0]), (2, 0, 90));
}

#[test]
fn copies_of_dots() {
    let mut session = play(&[27, 199, 1, 0, 0, 0, 65, 27, 123]);
    let answer = session.play(&[27, 80], DOTS - 1);
    assert_eq!((answer.first, answer.parameter, answer.printed), (13, 0, 0));
    let answer = session.play(&[27, 80, 27, 80], 2 * DOTS - 1);
    assert_eq!((answer.accepted, answer.first, answer.offset, answer.printed), (1, 13, 2, DOTS));
    assert_eq!(session.printed, session.dots);
    assert!(session.shown.iter().all(|&code| code == 32));
}

#[test]
fn back_to_mode_0() {
    let session = play(&[&[27, 199, 1, 9, 0, 9][..], &[27, 208, 0, 24, 24]].concat());
    let Settings { mode, kind, display, .. } = session.settings;
    assert_eq!((mode, kind, display, filled(&session)), (0, 3, 1, vec![]));
}

#[test]
fn settings_of_mode_3() {
    let three = play(&[]).settings;
    assert!(sound(&three) && sound(&Settings { step: 5, tracking: 0, secret: 1, ..three }));
    let second = |place: Place| {
        let mut settings = three;
        settings.places[1] = place;
        settings
    };
    let wrong = [
        Settings { kind: 2, ..three },
        Settings { display: 0, ..three },
        Settings { selected: 1, ..three },
        Settings { lines1: 9, ..three },
        Settings { lines2: 8, ..three },
        Settings { columns1: 79, ..three },
        Settings { columns2: 80, ..three },
        Settings { step: 9, ..three },
        second(Place { line: 0, ..HOME }),
        second(Place { line: 2, ..HOME }),
        second(Place { column: 2, ..HOME }),
        second(Place { top: 2, ..HOME }),
        second(Place { top: 0, ..HOME }),
        second(Place { waiting: 1, ..HOME }),
        Settings { rule: 2, ..second(Place { waiting: 1, ..HOME }) },
        Settings { mode: 3, ..OPENING },
        Settings { mode: 4, ..three },
    ];
    for settings in wrong {
        assert!(!sound(&settings), "{settings:?}");
    }
    for mark in [0, 7, 48, 95] {
        let mut settings = three;
        settings.marks[mark] = 1;
        assert_eq!(sound(&settings), mark == 0);
    }
    let first = Place { line: 8, column: 80, top: 1, waiting: 1 };
    assert!(sound(&Settings { rule: 2, places: [first, HOME], ..three }));
}

// ---- which dots a line has ----

/// The line's own words: d of N steps along the other axis, each at the first
/// place where the ideal line is half a dot or more across.
fn by_steps(start: Dot, end: Dot) -> Vec<(i64, i64)> {
    let at = |dot: Dot| (dot.horizontal as i64, dot.vertical as i64);
    let ((x0, y0), (x1, y1)) = (at(start), at(end));
    let (across, along) = ((x1 - x0).abs(), (y1 - y0).abs());
    let (n, d) = (across.max(along), across.min(along));
    let mut other = 0;
    let mut dots = Vec::new();
    for k in 0..=n {
        while 2 * k * d + n >= 2 * n * (other + 1) && n > 0 {
            other += 1;
        }
        let (right, down) = if across >= along { (k, other) } else { (other, k) };
        dots.push((x0 + right * (x1 - x0).signum(), y0 + down * (y1 - y0).signum()));
    }
    dots
}

#[test]
fn lines_in_every_direction() {
    let centre = dot(240, 32);
    for end in (0..=479).flat_map(|x| (0..=63).map(move |y| dot(x, y))) {
        for (start, end) in [(centre, end), (end, centre)] {
            let found: Vec<_> = line(start, end).collect();
            let plain: Vec<_> =
                found.iter().map(|dot| (dot.horizontal as i64, dot.vertical as i64)).collect();
            assert_eq!(plain, by_steps(start, end));
            assert_eq!((found[0], found[found.len() - 1]), (start, end));
        }
    }
}

#[test]
fn functions() {
    let on = play(&drawn(2));
    assert_eq!(on.dots.iter().map(|byte| byte.count_ones()).sum::<u32>(), 480);
    assert!(is_on(&on.dots, dot(0, 0)) && is_on(&on.dots, dot(479, 63)) && !is_on(&on.dots, dot(479, 62)));
    assert_eq!(filled(&play(&[drawn(2), drawn(1)].concat())), []);
    assert_eq!(filled(&play(&[drawn(2), drawn(3)].concat())), []);
    assert_eq!(play(&drawn(3)).dots, on.dots);
    assert_eq!(filled(&play(&[&drawn(2)[..], &[27, 199, 0, 0, 0, 0]].concat()))[0], (0, 112));
}

// ---- what touches dots ----

#[test]
fn what_clears_dots() {
    for bytes in [&[27, 42][..], &[12], MODE_3, &[27, 208, 1, 16], &[27, 208, 2, 8, 39, 35]] {
        assert_eq!(filled(&play(&[&drawn(2), bytes].concat())), [], "{bytes:?}");
    }
    let mut session = play(&drawn(2));
    assert_eq!((session.opening(1), filled(&session)), (0, vec![]));
    let mut session = play(&drawn(2));
    let before = session.dots.clone();
    assert_eq!((session.opening(3), &session.dots), (23, &before));
}

#[test]
fn what_keeps_dots() {
    let kept: [&[u8]; 9] = [
        &[10; 9],
        &[65; 641],
        &[27, 84],
        &[27, 89],
        &[27, 144, 0, 8],
        &[27, 145, 0, 8],
        &[27, 123],
        &[27, 210, 1, 1, 65],
        &[27, 61, 32, 32],
    ];
    let before = play(&drawn(2)).dots;
    for bytes in kept {
        assert_eq!(play(&[&drawn(2), bytes].concat()).dots, before, "{bytes:?}");
    }
    // nothing but an accepted 208 in modes 0 to 2, and the stores may hold any bytes
    let quiet: [&[u8]; 6] = [
        &[27, 42],
        &[12],
        &drawn(2),
        &[27, 199, 1, 200, 9, 9],
        &[27, 198, 9, 9, 9, 9, 9, 9, 9, 9, 9, 9, 9],
        &[27, 208, 9],
    ];
    for bytes in quiet {
        let mut session = Session::open();
        session.dots.fill(85);
        session.play(bytes, 0);
        assert!(session.dots.iter().all(|&byte| byte == 85), "{bytes:?}");
    }
}

// ---- what is idle ----

#[test]
fn idle_sequences_take_any_parameter() {
    let before = play(b"text\x1b\xd2\x01\x09*");
    for second in [148, 149, 209, 211, 214] {
        for parameter in [0, 1, 2, 3, 9, 27, 255] {
            let mut session = play(b"text\x1b\xd2\x01\x09*");
            let answer = session.play(&[27, second, parameter], 0);
            assert_eq!((answer.accepted, answer.refused), (1, 0));
            assert_eq!((session.settings, &session.layer), (before.settings, &before.layer));
        }
    }
    for second in [150, 151, 212, 213, 215] {
        let mut session = play(b"text\x1b\xd2\x01\x09*");
        assert_eq!(session.play(&[27, second], 0).accepted, 1);
        assert_eq!((session.settings, &session.layer), (before.settings, &before.layer));
    }
    // at the very end of a message 209 means 0, and that is idle too
    let mut session = play(b"text\x1b\xd2\x01\x09*");
    assert_eq!(session.play(&[27, 209], 0).accepted, 1);
    assert_eq!((session.settings, &session.layer), (before.settings, &before.layer));
}

#[test]
fn others_are_judged_as_ever() {
    assert_eq!(refused(&[27, 144, 8, 1]), (11, 1));
    assert_eq!(refused(&[27, 144, 0, 9]), (11, 2));
    assert_eq!(refused(&[27, 61, 40, 32]), (11, 1));
    assert_eq!(refused(&[27, 210, 9, 1, 1]), (11, 1));
    assert_eq!(refused(&[27, 208, 4]), (11, 1));
    assert_eq!(refused(&[27, 198, 9, 9]), (12, 0));
    assert_eq!(refused(&[27, 198, 9, 9, 9, 9, 9, 9, 9, 9, 9, 9]), (12, 0));
}

/// "one text screen of 8 lines by 80": a lift at line 9, late by rule 2.
#[test]
fn text_in_mode_3() {
    let session = play(&[10; 8]);
    assert_eq!(session.settings.places, [Place { line: 8, ..HOME }, HOME]);
    let session = play(&[&[65; 640][..], b"B"].concat());
    assert_eq!((session.cells[559], session.cells[560], session.cells[561]), (65, 66, 32));
    assert_eq!(&session.shown[..], &session.cells[..640]);
    let mut session = play(&[]);
    session.settings.rule = 2;
    session.play(&[27, 61, 39, 111, 65], 0);
    assert_eq!(session.settings.places[0], Place { line: 8, column: 80, top: 1, waiting: 1 });
    // the key call is served, and not seen
    let (settings, answer) = key_text(session.settings, 3, b"ABCDEFGH");
    assert_eq!((answer, &settings.texts[16..24]), (Answer::default(), &b"ABCDEFGH"[..]));
}

#[test]
fn streams_in_mode_3() {
    let line = [MODE_3, &drawn(2), b"ok", &[27, 199, 0, 0, 0, 0, 27, 80, 27, 209]].concat();
    let mut whole = Session::open();
    whole.play(&line, DOTS);
    for cut in 0..=line.len() {
        let mut session = Session::open();
        session.piece(&line[..cut], DOTS);
        session.piece(&line[cut..], DOTS);
        let answer = session.closing();
        assert_eq!((answer.number, answer.refused), (0, 0));
        assert_eq!((session.settings, &session.dots), (whole.settings, &whole.dots), "{cut}");
        assert_eq!((session.printed, session.shown), (whole.printed.clone(), whole.shown.clone()));
    }
}

// ---- the programs ----

fn record(kind: u8, body: &[u8]) -> Vec<u8> {
    let length = (body.len() as u16).to_le_bytes();
    [&length[..], &[kind, 0], body].concat()
}

#[test]
fn replay_of_rooms() {
    let copies = [MODE_3, &drawn(2), &[27, 80, 27, 80]].concat();
    let recording = [
        record(1, &copies),
        record(8, &(DOTS as u16).to_le_bytes()),
        record(1, &[27, 80, 27, 80]),
        record(8, &[0, 32]),
        record(2, &[27, 80, 27, 80]),
        record(8, &[0, 0]),
        record(1, &[27, 80]),
    ];
    let text = replay(&recording.concat());
    let lines: Vec<&str> = text.lines().collect();
    assert!(lines[0].ends_with("accepted 2 refused 2 first 13 at 16 printed 0 parameter 0"));
    assert_eq!(lines[1], "2 room 3840");
    assert!(lines[2].ends_with("accepted 1 refused 1 first 13 at 2 printed 3840 parameter 0"));
    assert_eq!(lines[3], "4 room 8192");
    assert!(lines[4].ends_with("accepted 2 refused 0 first 0 at 0 printed 7680 parameter 0"));
    assert_eq!(lines[5], "6 room 0");
    assert!(lines[6].ends_with("refused 1 first 13 at 0 printed 0 parameter 0"));
    assert_eq!(lines[7], "mode 3 lines 8 0 columns 80 0 selected 1");
    let dots = play(&drawn(2)).dots;
    assert!(text.contains(&format!(" dots {}\n1\n", reference::text::adler32(&dots))));
}

#[test]
fn rooms_that_are_bad() {
    for body in [&[][..], &[1], &[1, 32], &[255, 255], &[1, 2, 3]] {
        let text = replay(&[record(8, body), record(1, b"A")].concat());
        assert!(text.starts_with("1 bad record\nmode 0 "), "{body:?}");
    }
}

#[test]
fn pictures() {
    let drawing = record(1, &[MODE_3, &drawn(2), b"text"].concat());
    let dots = play(&drawn(2)).dots;
    assert_eq!(image(&drawing), [&b"P4\n480 64\n"[..], &dots].concat());
    // a bad record ends the recording, and what stands is written
    assert_eq!(image(&[&drawing[..], &[9]].concat()), image(&drawing));
    let text = image(&record(1, b"text"));
    assert_eq!(&text[..16], b"P5\n80 8\n255\ntext");
    assert_eq!((text.len(), text[16]), (12 + 640, 32));
    assert_eq!(image(&[])[12..], [32; 640]);
    assert_eq!(COPY, 656);
}
