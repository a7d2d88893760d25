//! Program `glass`: an ordinary terminal that reads what it writes shows the
//! glass, the counts under it, and the cursor.

use reference::glass::{glass, Glass, PART};
use reference::text::{letter, Session};

/// As much of a terminal as the program asks for.
struct Screen {
    rows: Vec<Vec<char>>,
    row: usize,
    column: usize,
}

impl Screen {
    fn reading(text: &str) -> Screen {
        let mut screen = Screen { rows: vec![vec!['?'; 90]; 20], row: 5, column: 5 };
        screen.read(text);
        screen
    }

    fn read(&mut self, text: &str) {
        let mut rest = text;
        while let Some(first) = rest.chars().next() {
            if first != '\x1b' {
                self.rows[self.row][self.column] = first;
                self.column += 1;
                rest = &rest[first.len_utf8()..];
                continue;
            }
            let end = rest.find(|c: char| c.is_ascii_alphabetic()).expect("a final byte");
            self.obey(&rest[2..end], &rest[end..=end]);
            rest = &rest[end + 1..];
        }
    }

    fn obey(&mut self, numbers: &str, last: &str) {
        let numbers: Vec<usize> = numbers.split(';').filter_map(|number| number.parse().ok()).collect();
        match (last, numbers.as_slice()) {
            ("H", []) => (self.row, self.column) = (0, 0),
            ("H", &[row, column]) => (self.row, self.column) = (row - 1, column - 1),
            ("J", [2]) => self.rows.iter_mut().for_each(|row| row.fill(' ')),
            ("J", []) if self.column == 0 => self.rows[self.row..].iter_mut().for_each(|row| row.fill(' ')),
            ("K", []) => self.rows[self.row][self.column..].fill(' '),
            other => panic!("{other:?} is not asked of the terminal"),
        }
    }

    fn line(&self, row: usize) -> String {
        String::from_iter(&self.rows[row]).trim_end().to_string()
    }
}

/// What stands on the terminal is what the session shows.
fn holds(screen: &Screen, session: &Session) {
    for (place, &code) in session.shown.iter().enumerate() {
        assert_eq!(screen.rows[place / 80][place % 80], letter(code), "place {place}");
    }
    let right = screen.rows[..8].iter().flat_map(|row| &row[80..]);
    assert!(right.into_iter().all(|&c| c == ' '), "nothing stands right of the glass");
}

/// Two screens beside each other, a mark, both kinds of refusal, a copy, one
/// screen in two halves, the cursor off, and codes that are dots.
const STREAM: [&[u8]; 6] = [
    b"one\r\ntwo\x1b=$(three",
    b"\x1b\xd0\x02\x10\x32|left\x1b\xd1\x01right\x1b\xd2\x08\x50*",
    b"\x1b\x1b\x1bP\x1b=ZZ",
    b"\x1b\xd0\x01\x10A",
    b"\x1b=.0B",
    b"\x1b2\x07\xff",
];

#[test]
fn however_it_is_cut() {
    let stream = STREAM.concat();
    for size in 1..=stream.len() {
        let mut run = Glass::open();
        let mut screen = Screen::reading(run.text());
        let mut read = run.text().len();
        for part in stream.chunks(size) {
            assert!(run.part(part));
            screen.read(&run.text()[read..]);
            read = run.text().len();
            holds(&screen, run.session());
        }
        let text = run.close();
        screen.read(&text[read..]);
        assert_eq!(screen.line(8), "answer 0 taken 62 accepted 8 refused 2 first 10 at 40 parameter 0");
        assert_eq!((screen.row, screen.column), (9, 0));
    }
}

/// The cursor stands in front of the place where the next letter is seen.
#[test]
fn the_cursor_is_where_the_next_letter_comes() {
    let starts: [&[u8]; 7] = [
        b"",
        b"text\r\n\n",
        b"\x1b=7n",
        b"\x1b\xd0\x01\x10\x1b=-5",
        b"\x1b\xd0\x01\x10\x1b=(5",
        b"\x1b\xd0\x02\x10\x14#\x1b\xd1\x01abc",
        b"\x1b\xd0\x02\x10\x14#abc",
    ];
    for start in starts {
        let screen = Screen::reading(&{
            let mut run = Glass::open();
            run.part(start);
            run.text().to_string()
        });
        let mut run = Glass::open();
        run.part(&[start, b"@"].concat());
        let next = Screen::reading(run.text());
        let found: Vec<_> = (0..640).filter(|&p| next.rows[p / 80][p % 80] == '@').collect();
        assert_eq!(found, [screen.row * 80 + screen.column], "{start:?}");
    }
}

/// Off, or with its line outside the window, it stands behind the last line.
#[test]
fn no_cursor_is_behind_the_counts() {
    for stream in [&b"\x1b2"[..], b"\x1b\x95\x01\x1b\xd5"] {
        let mut run = Glass::open();
        run.part(stream);
        let screen = Screen::reading(run.text());
        assert_eq!((screen.row, screen.column), (8, screen.line(8).len()));
    }
}

/// Only what changed: a letter that stays is not written again.
#[test]
fn only_what_changed() {
    let mut run = Glass::open();
    run.part(b"abcdef");
    let before = run.text().len();
    run.part(b"\x1b=  abXdef");
    let drawn = run.text()[before..].split("\x1b[9;01H").next().unwrap().to_string();
    assert_eq!(drawn, "\x1b[1;03HX");
}

/// A part has room for all the copies that it asks for.
#[test]
fn copies_have_room() {
    let parts = [&[27][..], &b"P\x1b".repeat(PART / 2), b"P"];
    let text = glass(parts);
    assert!(text.contains("accepted 129 refused 0"), "{text:?}");
    let text = glass([&b"\x1b\xd0\x03"[..]].into_iter().chain(parts));
    assert!(text.contains("accepted 130 refused 0"), "{text:?}");
}

/// In mode 3 the dots stand below, and are put away when it is left.
#[test]
fn dots_below() {
    let mut run = Glass::open();
    // the first dot, the last, and all of the row of dots 9 by a line
    assert!(run.part(b"\x1b\xd0\x03curve\x1b\xc7\x01\x00\x00\x00\x1b\xc7\x01\x3f\x01\xdf"));
    assert!(run.part(b"\x1b\xc6\x00\x00\x00\x09\x01\xdf\x00\x09\xff\xff\x02"));
    let screen = Screen::reading(run.text());
    holds(&screen, run.session());
    assert_eq!(screen.rows[10][..3], ['\u{2801}', '\u{2800}', '\u{2800}']);
    assert!(screen.rows[11][..80].iter().all(|&letter| letter == '\u{2809}'), "points 1 and 4");
    assert_eq!(screen.rows[17][78..81], ['\u{2800}', '\u{2880}', ' ']);
    assert_eq!((screen.row, screen.column), (0, 5));
    assert_eq!(Screen::reading(&run.close()).row, 18);

    let mut run = Glass::open();
    assert!(run.part(b"\x1b\xd0\x03\x1b\xc7\x01\x00\x00\x00"));
    assert!(run.part(b"\x1b\xd0\x00\x18\x18text"));
    let screen = Screen::reading(run.text());
    holds(&screen, run.session());
    assert!((9..20).all(|row| screen.line(row).is_empty()), "nothing is left of the dots");
    assert_eq!(Screen::reading(&run.close()).row, 9);
}

/// Each dot raises the one point that stands for it, and no other dot does.
#[test]
fn each_dot_raises_its_point() {
    let dots = (0..64u8).step_by(5).flat_map(|v| (0..480u16).step_by(7).map(move |h| (v, h)));
    for (v, h) in dots {
        let mut run = Glass::open();
        let [high, low] = h.to_be_bytes();
        assert!(run.part(&[27, 208, 3, 27, 199, 1, v, high, low]));
        let screen = Screen::reading(run.text());
        let raised: Vec<_> = (0..640)
            .map(|place| (place / 80, place % 80))
            .map(|(row, column)| (row, column, screen.rows[10 + row][column]))
            .filter(|&(_, _, letter)| letter != '\u{2800}')
            .collect();
        let (row, column) = (usize::from(v / 8), usize::from(h / 6));
        let left = [0x2801, 0x2802, 0x2804, 0x2840];
        let right = [0x2808, 0x2810, 0x2820, 0x2880];
        let side = if h % 6 < 3 { left } else { right };
        let letter = char::from_u32(side[usize::from(v % 8 / 2)]).unwrap();
        assert_eq!(raised, [(row, column, letter)], "dot {v}, {h}");
    }
}
