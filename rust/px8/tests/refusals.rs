//! Refused calls and sequences, and what stays as it was: settings, stores,
//! the printer buffer, and the bytes around all of them.

use px8::{Answer, CELLS, COPY, COUNT_MOST, DOTS, LAYER, MESSAGE_MOST, SHOWN, Settings, Terminal};

const GUARD: usize = 64;

/// A store between two guards; every byte is unlike its neighbours.
fn guarded(size: usize) -> Vec<u8> {
    (0..size + 2 * GUARD).map(|at| (at % 251) as u8).collect()
}

fn inner(store: &mut [u8]) -> &mut [u8] {
    let end = store.len() - GUARD;
    &mut store[GUARD..end]
}

/// A call on settings and bytes; a closing looks at the bytes no more than at
/// the printer buffer.
type Call = fn(&mut Settings, &[u8], &mut [u8], &mut [u8], &mut [u8], &mut [u8], &mut [u8]) -> Answer;

const CLOSING: Call =
    |settings, _, cells, layer, shown, dots, _| px8::closing(settings, cells, layer, shown, dots);

/// Makes the call on guarded stores of these sizes, and returns its results
/// and whether every byte of every buffer stayed.
fn call(made: Call, mut settings: Settings, bytes: &[u8], sizes: [usize; 5]) -> (Settings, Answer, bool) {
    let mut stores = sizes.map(guarded);
    let before = stores.clone();
    let [cells, layer, shown, dots, printer] = &mut stores;
    let (cells, layer, shown) = (inner(cells), inner(layer), inner(shown));
    let answer = made(&mut settings, bytes, cells, layer, shown, inner(dots), inner(printer));
    (settings, answer, stores == before)
}

fn refused(made: Call, settings: Settings, bytes: &[u8], sizes: [usize; 5], number: u8) {
    let (after, answer, unaltered) = call(made, settings, bytes, sizes);
    let expected =
        Answer { number, taken: 0, accepted: 0, refused: 0, first: 0, parameter: 0, offset: 0, printed: 0 };
    assert_eq!(answer, expected);
    assert_eq!(after, settings);
    assert!(unaltered);
}

fn opening_settings() -> Settings {
    *Terminal::open().settings()
}

const SIZES: [usize; 5] = [CELLS, LAYER, SHOWN, DOTS, COPY];

#[test]
fn stores_of_a_wrong_size() {
    let settings = opening_settings();
    for store in 0..4 {
        for size in [0, 1, SIZES[store] - 1, SIZES[store] + 1] {
            let mut sizes = SIZES;
            sizes[store] = size;
            for made in [px8::message, px8::message_short, px8::piece, CLOSING] {
                refused(made, settings, b"text\x1bP", sizes, px8::STORE_SIZE);
            }
            let mut stores = sizes.map(guarded);
            let before = stores.clone();
            let [cells, layer, shown, dots, _] = &mut stores;
            for rule in [1, 2, 3] {
                let opened = px8::opening(rule, inner(cells), inner(layer), inner(shown), inner(dots));
                assert_eq!(opened, (settings, px8::STORE_SIZE));
            }
            assert_eq!(stores, before);
        }
    }
}

#[test]
fn rules_that_are_none() {
    let mut stores = SIZES.map(guarded);
    let before = stores.clone();
    for rule in [0, 3, 255, 256, 257, 258, usize::MAX] {
        let [cells, layer, shown, dots, _] = &mut stores;
        let opened = px8::opening(rule, inner(cells), inner(layer), inner(shown), inner(dots));
        assert_eq!(opened, (opening_settings(), px8::BAD_RULE));
        assert_eq!(Terminal::open_with(rule), Err(px8::Refused::BadRule));
    }
    assert_eq!(stores, before);
}

#[test]
fn message_or_piece_too_long() {
    for made in [px8::message, px8::message_short, px8::piece] {
        refused(made, opening_settings(), &[65; MESSAGE_MOST + 1], SIZES, px8::TOO_LONG);
        let (_, answer, unaltered) = call(made, opening_settings(), &[65; MESSAGE_MOST], SIZES);
        assert_eq!((answer.number, answer.taken, unaltered), (0, 4096, false));
    }
}

/// One field after the other just outside its range.
#[test]
fn settings_not_sound() {
    let changes: [fn(&mut Settings); 37] = [
        |s| s.mode = 3,
        |s| s.mode = 255,
        |s| s.lines1 = 7,
        |s| s.lines2 = 25,
        |s| s.columns1 = 79,
        |s| s.columns2 = 81,
        |s| s.selected = 2,
        |s| s.places[0].line = 0,
        |s| s.places[0].line = 25,
        |s| s.places[0].column = 81,
        |s| s.places[0].top = 18,
        |s| s.places[1].line = 25,
        |s| s.places[1].column = 0,
        |s| s.places[1].top = 0,
        |s| s.tracking = 2,
        |s| s.step = 9,
        |s| s.secret = 2,
        |s| s.cursor = 2,
        |s| s.display = 2,
        |s| s.kind = 4,
        |s| s.keys.leds[2] = 2,
        |s| s.keys.charset = b'A',
        |s| s.keys.strings = 2,
        |s| s.keys.repeat = 2,
        |s| s.keys.delay = 0,
        |s| s.keys.interval = 128,
        |s| s.marks[0] = 1 << 23,
        |s| s.marks[0] = 1 << 47,
        |s| s.marks[0] = 1 << 48,
        |s| s.marks[1] = 1 << 23,
        |s| s.marks[1] = 1 << 63,
        |s| s.rule = 0,
        |s| s.rule = 3,
        |s| (s.places[0].column, s.places[0].late) = (80, 1),
        |s| (s.rule, s.places[0].column, s.places[0].late) = (2, 79, 1),
        |s| (s.rule, s.places[1].column, s.places[1].late) = (2, 1, 1),
        |s| (s.rule, s.places[1].column, s.places[1].late) = (2, 80, 2),
    ];
    for change in changes {
        let mut settings = opening_settings();
        change(&mut settings);
        for made in [px8::message, px8::message_short, px8::piece, CLOSING] {
            refused(made, settings, b"text\x1bP", SIZES, px8::UNSOUND);
        }
    }
    let mut settings = opening_settings();
    settings.keys.shift = 1;
    refused(px8::message, settings, b"", SIZES, px8::UNSOUND);
}

/// Settings in which these bytes wait.
fn with_line(bytes: &[u8], held: u8, count: u32) -> Settings {
    let mut settings = Settings { held, count, ..opening_settings() };
    settings.waiting[..bytes.len()].copy_from_slice(bytes);
    settings
}

/// Waiting bytes that are no unfinished sequence, longer than the count, or
/// with a tail that is not zero; a count beyond its limit.
#[test]
fn lines_not_sound() {
    let rows: [(&[u8], u8, u32); 12] = [
        (&[27], 1, 0),
        (&[27, 61], 2, 1),
        (&[65], 1, 1),
        (&[0], 1, 1),
        (&[27, 27], 2, 2),
        (&[27, 80], 2, 2),
        (&[27, 208, 9], 3, 3),
        (&[27, 208, 3], 3, 3),
        (&[27, 61, 32, 32], 4, 4),
        (&[27, 61], 1, 2),
        (&[27, 198, 1, 1, 1, 1, 1, 1, 1, 1, 1, 1], 13, 13),
        (&[], 0, COUNT_MOST + 1),
    ];
    for (bytes, held, count) in rows {
        for made in [px8::message, px8::message_short, px8::piece, CLOSING] {
            refused(made, with_line(bytes, held, count), b"text", SIZES, px8::UNSOUND);
        }
    }
    let sound: [(&[u8], u32); 4] = [(&[27], 1), (&[27, 209], 2), (&[27, 208, 2, 99], 4), (&[], COUNT_MOST)];
    for (bytes, count) in sound {
        let settings = with_line(bytes, bytes.len() as u8, count);
        assert_eq!(call(CLOSING, settings, &[], SIZES).1.number, px8::SERVED);
    }
}

/// A message and a short one 1, 2, 3, 16; a piece 1, 2, 3, 15; a closing 1, 3.
#[test]
fn order_of_the_numbers() {
    let waits = with_line(&[27], 1, COUNT_MOST);
    let unsound = Settings { step: 0, ..waits };
    let short = [CELLS, LAYER, SHOWN, DOTS + 1, 0];
    for (made, last) in [
        (px8::message as Call, px8::BYTES_WAIT),
        (px8::message_short, px8::BYTES_WAIT),
        (px8::piece, px8::STREAM_TOO_LONG),
    ] {
        refused(made, unsound, &[65; 5000], short, px8::STORE_SIZE);
        refused(made, unsound, &[65; 5000], SIZES, px8::TOO_LONG);
        refused(made, unsound, &[65; 50], SIZES, px8::UNSOUND);
        refused(made, waits, &[65; 50], SIZES, last);
    }
    refused(CLOSING, unsound, &[], short, px8::STORE_SIZE);
    refused(CLOSING, unsound, &[], SIZES, px8::UNSOUND);
}

/// 15 is judged by all bytes of the piece; an empty message is refused by 16 too.
#[test]
fn the_counts_limit() {
    let nearly = with_line(&[], 0, COUNT_MOST - 1);
    refused(px8::piece, nearly, &[65, 66], SIZES, px8::STREAM_TOO_LONG);
    let (full, answer, _) = call(px8::piece, nearly, &[27], SIZES);
    assert_eq!((answer.number, answer.taken, full.waiting(), full.count), (0, 1, &[27][..], COUNT_MOST));
    refused(px8::piece, full, &[80], SIZES, px8::STREAM_TOO_LONG);
    assert_eq!(call(px8::piece, full, &[], SIZES).1.number, px8::SERVED);
    refused(px8::message, full, &[], SIZES, px8::BYTES_WAIT);
    refused(px8::message_short, full, &[], SIZES, px8::BYTES_WAIT);
    let (closed, answer, _) = call(CLOSING, full, &[], SIZES);
    assert_eq!((answer.taken, answer.first, answer.offset), (0, px8::CUT, 999_999_999));
    assert_eq!(closed, opening_settings());
}

/// Each number of a refused sequence, its offset, and the bytes taken.
#[test]
fn refused_sequences() {
    let rows: [(&[u8], usize, u8, u32); 7] = [
        (&[65, 27, 27, 66], 0, px8::NOT_LISTED, 1),
        (&[65, 66, 27, 61, 56, 32], 0, px8::OUT_OF_RANGE, 2),
        (&[27, 51, 27], 0, px8::CUT, 2),
        (&[27, 80], 655, px8::NO_ROOM, 0),
        (&[27, 80, 27, 80], 1311, px8::NO_ROOM, 2),
        (&[27, 208, 3, 27, 80], 3839, px8::NO_ROOM, 3),
        (&[27, 209, 65], 0, px8::OUT_OF_RANGE, 0),
    ];
    for (bytes, room, first, offset) in rows {
        let answer = Terminal::open().message_with_room(bytes, room).answer;
        assert_eq!((answer.number, answer.taken), (0, bytes.len() as u32), "{bytes:?}");
        assert_eq!((answer.refused, answer.first, answer.offset), (1, first, offset), "{bytes:?}");
    }
}

/// Each refusal's parameter, and how it prints itself.
#[test]
fn refusals_in_words() {
    // said of every parameter but the first
    let sum = ", or its sum with the one before is too large";
    let rows: [(&[u8], u8, &str); 12] = [
        (&[65, 27, 27], 0, "refusal 10 at offset 1: the byte after ESC is not in the list"),
        (&[27, 61, 56, 112], 1, "refusal 11 at offset 0: parameter 1 is outside its range"),
        (&[27, 61, 55, 112], 2, "refusal 11 at offset 0: parameter 2 is outside its range"),
        (&[27, 144, 1, 24], 2, "refusal 11 at offset 0: parameter 2 is outside its range"),
        (&[27, 144, 24, 0], 1, "refusal 11 at offset 0: parameter 1 is outside its range"),
        (&[27, 208, 9], 1, "refusal 11 at offset 0: parameter 1 is outside its range"),
        (&[27, 208, 0, 7, 255], 2, "refusal 11 at offset 0: parameter 2 is outside its range"),
        (&[27, 208, 0, 255, 8], 3, "refusal 11 at offset 0: parameter 3 is outside its range"),
        (&[65, 66, 27, 210, 8, 81, 0, 27, 27], 2, "refusal 11 at offset 2: parameter 2 is outside its range"),
        (&[27, 208, 2, 99], 0, "refusal 12 at offset 0: the message or stream ends inside the sequence"),
        (
            &[27, 80],
            0,
            "refusal 13 at offset 0: a copy needs 656 bytes of printer room, in mode 3 3840, and fewer are left",
        ),
        (&[27, 208, 3, 27, 199, 1, 9, 2, 0], 4, "refusal 11 at offset 3: parameter 4 is outside its range"),
    ];
    for (bytes, parameter, words) in rows {
        let answer = Terminal::open().message_with_room(bytes, 655).answer;
        assert_eq!(answer.parameter, parameter, "{bytes:?}");
        let refusal = answer.refusal().expect("refused");
        assert_eq!(
            (refusal.number, refusal.parameter, refusal.offset),
            (answer.first, parameter, answer.offset)
        );
        let end = if parameter > 1 { sum } else { "" };
        assert_eq!(refusal.to_string(), format!("{words}{end}"));
    }
    assert_eq!(Terminal::open().message(&[27, 61, 55, 111]).answer.refusal(), None);
}

/// A served call writes the four stores and the copies, and nothing else.
#[test]
fn served_calls_stay_inside() {
    let mut stores = [CELLS, LAYER, SHOWN, DOTS, COPY + 10].map(guarded);
    let before = stores.clone();
    let [cells, layer, shown, dots, printer] = &mut stores;
    let (cells, layer, shown, dots) = (inner(cells), inner(layer), inner(shown), inner(dots));
    let (mut settings, _) = px8::opening(1, cells, layer, shown, dots);
    let bytes = [&[10; 60][..], &[27, 210, 8, 80, 42, 27, 80]].concat();
    let answer = px8::message(&mut settings, &bytes, cells, layer, shown, dots, inner(printer));
    assert_eq!((answer.number, answer.accepted, answer.printed), (0, 2, COPY as u64));
    for (store, was) in stores.iter().zip(&before) {
        let end = was.len() - GUARD;
        assert_eq!((&store[..GUARD], &store[end..]), (&was[..GUARD], &was[end..]));
    }
    // past the copy the printer buffer stays
    assert_eq!(stores[4][GUARD + COPY..], before[4][GUARD + COPY..]);
    assert_eq!(&stores[4][GUARD + COPY - 3..GUARD + COPY], &[42, 13, 10]);
}

#[test]
fn printer_call() {
    let buffer = [1, 2, 3];
    for count in 0..=3 {
        let part = px8::printed(&buffer, count);
        assert_eq!((part, part.as_ptr()), (&buffer[..count as usize], buffer.as_ptr()));
    }
    for count in [4, u64::MAX] {
        assert!(px8::printed(&buffer, count).is_empty());
    }
    assert!(px8::printed(&[], 0).is_empty() && px8::printed(&[], 1).is_empty());
}

/// Every number by which a whole call is refused has a name and words of its own; no other has.
#[test]
fn refusals_by_name() {
    let named: Vec<u8> = (0..=255).filter(|&number| px8::Refused::of(number).is_some()).collect();
    assert_eq!(named, [1, 2, 3, 15, 16, 17, 18, 19, 20, 21, 23, 24, 25]);
    let words: std::collections::BTreeSet<String> = named
        .iter()
        .map(|&number| {
            let refused = px8::Refused::of(number).unwrap();
            assert_eq!(refused.number(), number);
            let said = refused.to_string();
            said.strip_prefix(&format!("refused by {number}: ")).expect("its number first").to_string()
        })
        .collect();
    assert_eq!(words.len(), named.len());
}
