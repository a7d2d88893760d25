//! Sequences by name: their bytes, read back by the terminal and into names again; writers
//! over slices and vectors; refusals.

use px8::{Dot, Sequence, Settings, Terminal, Unwritten, Writer};

/// A terminal of each mode.
fn terminals() -> [Terminal; 4] {
    let modes = [&[27, 208, 0, 24, 24][..], &[27, 208, 1, 24], &[27, 208, 2, 10, 20, 35], &[27, 208, 3]];
    modes.map(|bytes| {
        let mut terminal = Terminal::open();
        assert!(terminal.message(bytes).answer.is_clean());
        terminal
    })
}

/// Every sequence by its name, the bytes that the list has for it, and its words.
#[rustfmt::skip]
fn all() -> Vec<(Sequence, Vec<u8>, &'static str)> {
    let (from, to) = (Dot { horizontal: 400, vertical: 18 }, Dot { horizontal: 18, vertical: 19 });
    let (rows, codes) = ([1, 2, 4, 8, 16, 32, 64, 128], [28, 29, 30, 31]);
    vec![
        (Sequence::Print { code: 27 }, vec![37, 27], "print code 27"),
        (Sequence::Clear, vec![42], "clear the screen"),
        (Sequence::CursorOff, vec![50], "cursor off"), (Sequence::CursorOn, vec![51], "cursor on"),
        (Sequence::PlaceCursor { line: 32, column: 33 }, vec![61, 32, 33], "cursor to line 1, column 2"),
        (Sequence::CharacterSet { letter: b'G' }, vec![67, 71], "character set G"),
        (Sequence::Copy, vec![80], "print a copy"),
        (Sequence::EraseLine, vec![84], "erase to the end of the logical line"),
        (Sequence::EraseScreen, vec![89], "erase to the end of the screen"),
        (Sequence::SecretOn, vec![123], "secret on"), (Sequence::SecretOff, vec![125], "secret off"),
        (Sequence::ScrollUp { above: 2, lines: 4 }, vec![144, 2, 4], "4 lines below line 2 up by one"),
        (Sequence::ScrollDown { above: 2, lines: 4 }, vec![145, 2, 4], "4 lines below line 2 down by one"),
        (Sequence::Step { lines: 5 }, vec![148, 5], "step 5"),
        (Sequence::Tracking { off: 0 }, vec![149, 0], "tracking on"),
        (Sequence::Tracking { off: 1 }, vec![149, 1], "tracking off"),
        (Sequence::WindowUp, vec![150], "window up"), (Sequence::WindowDown, vec![151], "window down"),
        (Sequence::InsOn, vec![160], "INS on"), (Sequence::InsOff, vec![161], "INS off"),
        (Sequence::CapsOn, vec![162], "CAPS on"), (Sequence::CapsOff, vec![163], "CAPS off"),
        (Sequence::NumOn, vec![164], "NUM on"), (Sequence::NumOff, vec![165], "NUM off"),
        (Sequence::KeyCodes, vec![176], "function keys send codes"),
        (Sequence::KeyStrings, vec![177], "function keys send strings"),
        (Sequence::DrawLine { from, to, mask: 0xaa55, function: 2 }, vec![198, 1, 144, 0, 18, 0, 18, 0, 19, 170, 85, 2],
            "line of dots from 400 of row 18 to 18 of row 19, mask 1010101001010101, function 2"),
        (Sequence::SetDot { function: 1, vertical: 63, horizontal: 479 }, vec![199, 1, 63, 1, 223], "dot 479 of row 63, function 1"),
        (Sequence::Mode0 { lines1: 20, lines2: 28 }, vec![208, 0, 20, 28], "mode 0, 20 and 28 lines"),
        (Sequence::Mode1 { lines: 16 }, vec![208, 1, 16], "mode 1, 16 lines"),
        (Sequence::Mode2 { lines: 10, columns: 20, boundary: 35 }, vec![208, 2, 10, 20, 35],
            "mode 2, 10 lines, 20 and 59 columns, boundary 35"),
        (Sequence::Mode3, vec![208, 3], "mode 3"),
        (Sequence::Select { screen: 0 }, vec![209, 0], "select screen 1"),
        (Sequence::Cover { row: 8, column: 80, code: 7 }, vec![210, 8, 80, 7], "cover row 8, column 80 with code 7"),
        (Sequence::KeyDisplay { display: 0 }, vec![211, 0], "key line on"),
        (Sequence::KeyDisplay { display: 1 }, vec![211, 1], "key line off"),
        (Sequence::WindowTop, vec![212], "window to the top"), (Sequence::WindowEnd, vec![213], "window to the end"),
        (Sequence::CursorType { kind: 3 }, vec![214, 3], "cursor type 3"),
        (Sequence::WindowToCursor, vec![215], "window to the cursor"),
        (Sequence::Pattern { code: 254, rows }, [&[224, 254], &rows[..]].concat(),
            "pattern of code 254: rows [1, 2, 4, 8, 16, 32, 64, 128]"),
        (Sequence::KeyRepeat { on: 0 }, vec![240, 0], "key repeat off"), (Sequence::KeyRepeat { on: 1 }, vec![240, 1], "key repeat on"),
        (Sequence::RepeatDelay { time: 127 }, vec![241, 127], "key repeat starts after 127/64 s"),
        (Sequence::RepeatInterval { time: 1 }, vec![242, 1], "key repeat every 1/256 s"),
        (Sequence::Arrows { codes }, vec![243, 28, 29, 30, 31], "arrow keys send [28, 29, 30, 31]"),
        (Sequence::ShiftArrows { codes }, vec![244, 28, 29, 30, 31], "arrow keys with SHIFT send [28, 29, 30, 31]"),
        (Sequence::CtrlArrows { codes }, vec![245, 28, 29, 30, 31], "arrow keys with CTRL send [28, 29, 30, 31]"),
        (Sequence::ClearKeys, vec![246], "clear the key buffer"),
        (Sequence::ShiftState { state: 66 }, vec![247, 66], "shift state 66"),
    ]
}

#[test]
fn every_sequence_has_its_bytes_and_words() {
    for (sequence, bytes, words) in all() {
        assert_eq!([vec![sequence.second()], sequence.parameters()].concat(), bytes, "{words}");
        assert_eq!(Sequence::of(bytes[0], &bytes[1..]), Some(sequence));
        assert_eq!(sequence.to_string(), words);
    }
    // by the name alone: what the enum calls them
    let named = |sequence: Sequence| format!("{sequence:?}").split([' ', '{']).next().unwrap().to_string();
    let names: std::collections::BTreeSet<_> =
        all().into_iter().map(|(sequence, ..)| named(sequence)).collect();
    assert_eq!(names.len(), 47);
}

/// Whatever the parameters: every second byte with every number of them.
#[test]
fn bytes_and_names_go_both_ways() {
    for second in 0..=255 {
        for count in 0..=12 {
            for first in [0, 1, 2, 3, 4, 27, 255] {
                let mut parameters: Vec<u8> = (0..count as u8).map(|at| at.wrapping_mul(37) ^ 200).collect();
                parameters.iter_mut().take(1).for_each(|byte| *byte = first);
                let listed = reference::read::length(second, parameters.first().copied()) == Some(2 + count);
                let no_mode = second == 208 && parameters.first().is_some_and(|&mode| mode > 3);
                let sequence = Sequence::of(second, &parameters);
                assert_eq!(sequence.is_some(), listed && !no_mode && (second, count) != (208, 0));
                if let Some(sequence) = sequence {
                    assert_eq!((sequence.second(), sequence.parameters()), (second, parameters));
                    assert_ne!(sequence.to_string(), "");
                }
            }
        }
    }
}

/// In every mode what is written is read as one accepted sequence.
#[test]
fn every_sequence_is_read_back() {
    for terminal in terminals() {
        for (sequence, bytes, words) in all() {
            let written = terminal.write([sequence]).unwrap();
            assert_eq!(written, [vec![27], bytes].concat());
            let answer = terminal.clone().message(&written).answer;
            assert_eq!((answer.accepted, answer.refused), (1, 0), "{words}");
            assert_eq!(answer.taken as usize, written.len());
        }
    }
}

fn opening() -> Settings {
    *Terminal::open().settings()
}

const BELOW: Sequence = Sequence::cursor_to(25, 1);

#[test]
fn slices_and_vectors_get_the_same() {
    let settings = opening();
    let mut buffer = [7; 200];
    let mut slice = Writer::new(&mut buffer[..]);
    let mut vector = Writer::new(Vec::new());
    let mut lent = Vec::new();
    for (sequence, ..) in all() {
        slice.write(&settings, sequence).unwrap();
        vector.write(&settings, sequence).unwrap();
        Writer::new(&mut lent).write(&settings, sequence).unwrap();
        assert!(vector.write(&settings, BELOW).is_err());
        assert!(slice.write(&settings, BELOW).is_err());
    }
    let place = slice.place();
    assert_eq!((slice.written(), vector.written()), (&lent[..], &lent[..]));
    assert_eq!((vector.place(), vector.into_inner()), (place, lent));
    assert!(buffer[place..].iter().all(|&byte| byte == 7));
}

#[test]
fn refusals_change_nothing() {
    let settings = opening();
    let unsound = Settings { step: 0, ..settings };
    let number = |settings: &Settings, sequence: Sequence, length: usize, place: usize| {
        let mut buffer = vec![7; length];
        let mut writer = Writer::at(&mut buffer, place);
        let Unwritten { number, parameter } = writer.write(settings, sequence).unwrap_err();
        assert_eq!(writer.place(), place);
        assert_eq!(buffer, vec![7; length]);
        (number, parameter)
    };
    assert_eq!(number(&settings, BELOW, 9, 2), (px8::OUT_OF_RANGE, 1));
    assert_eq!(number(&settings, Sequence::cursor_to(24, 81), 9, 2), (px8::OUT_OF_RANGE, 2));
    assert_eq!(number(&settings, Sequence::cursor_to(255, 255), 9, 2), (px8::OUT_OF_RANGE, 1));
    assert_eq!(number(&settings, BELOW, 0, 2), (px8::OUT_OF_RANGE, 1));
    assert_eq!(number(&unsound, BELOW, 0, 2), (px8::UNSOUND, 0));
    for place in [3, 4, 5, usize::MAX - 1, usize::MAX] {
        assert_eq!(number(&settings, Sequence::Clear, 4, place), (px8::NO_SPACE, 0));
    }
}

/// By numbers, as C gives them: bytes that are no sequence get the reader's number.
#[test]
fn bytes_that_are_no_sequence() {
    let number = |second: u8, parameters: &[u8]| {
        let mut buffer = [7; 30];
        let reached = px8::write(&opening(), second, parameters, &mut buffer, 9);
        assert_eq!((reached.place, buffer), (9, [7; 30]));
        (reached.number, reached.parameter)
    };
    assert_eq!([number(27, &[]), number(42, &[0]), number(198, &[0; 12])], [(px8::NOT_LISTED, 0); 3]);
    assert_eq!([number(61, &[32]), number(208, &[]), number(208, &[2, 8, 8])], [(px8::CUT, 0); 3]);
    assert_eq!([number(208, &[4]), number(208, &[255])], [(px8::OUT_OF_RANGE, 1); 2]);
}

#[test]
fn errors_in_words() {
    let said = |number: u8, parameter: u8| Unwritten { number, parameter }.to_string();
    assert_eq!(said(px8::UNSOUND, 0), "not written, number 3: a setting is outside its range");
    let words = "not written, number 11: parameter 2 is outside its range, or its sum with the one before is too large";
    assert_eq!(said(px8::OUT_OF_RANGE, 2), words);
    assert_eq!(said(px8::NO_SPACE, 0), "not written, number 22: the buffer has no space for it");
}
