//! The words of the program `glass`: the glass in an ordinary terminal.
//!
//! It clears the terminal and then writes, after the opening and after each
//! call, what changed: by rows, each run of letters that are no longer those
//! that stand there, with its place in front. Row 9 has the counts of all calls
//! and their first refusal, and is written anew each time. Then the terminal's
//! cursor goes where the cursor is, if it is on and on the glass. At the very
//! end it goes to row 10.
//!
//! In mode 3 the dots stand below, in rows 11 to 18, as Braille letters, and are
//! written anew after each call, before the text; a letter has two columns of four
//! points, and a point stands for 3 columns of 2 rows of dots and is raised where
//! one of them is on. When the mode is left, what is below row 9 is cleared; at the
//! end of a stream that stays in it the cursor goes to row 19.

use super::dots::{is_on, Dot, LAST_HORIZONTAL, LAST_VERTICAL};
use super::picture::cursor_place;
use super::settings::{Answer, DOTS, ROWS, WIDTH};
use super::text::{answer_text, letter, Session};

/// A read gives at most so many bytes.
pub const PART: usize = 256;

/// Room for every copy that a part can ask for, at two bytes each, in mode 3 too.
/// An ESC that waits is one byte more and makes for none.
const ROOM: usize = PART / 2 * DOTS;

pub struct Glass {
    session: Session,
    letters: Vec<char>,
    total: Answer,
    text: String,
}

impl Glass {
    pub fn open() -> Glass {
        let mut glass = Glass {
            session: Session::open(),
            letters: vec![' '; ROWS * WIDTH],
            total: Answer::default(),
            text: "\x1b[H\x1b[2J".to_string(),
        };
        glass.draw();
        glass
    }

    /// A part of the stream; whether the stream goes on.
    pub fn part(&mut self, bytes: &[u8]) -> bool {
        let mode = self.session.settings.mode;
        let answer = self.session.piece(bytes, ROOM);
        self.add(answer);
        self.draw_dots(mode);
        self.draw();
        answer.number == 0
    }

    /// The stream's end, and all that was written.
    pub fn close(mut self) -> String {
        let mode = self.session.settings.mode;
        let answer = self.session.closing();
        self.add(answer);
        self.draw_dots(mode);
        self.draw();
        let last = if self.session.settings.mode == 3 { 19 } else { 10 };
        self.text + &address(last, 1)
    }

    /// What was written so far, and what stands.
    pub fn text(&self) -> &str {
        &self.text
    }

    pub fn session(&self) -> &Session {
        &self.session
    }

    fn add(&mut self, answer: Answer) {
        let total = &mut self.total;
        if total.refused == 0 {
            (total.first, total.offset, total.parameter) = (answer.first, answer.offset, answer.parameter);
        }
        total.number = answer.number;
        total.taken += answer.taken;
        total.accepted += answer.accepted;
        total.refused += answer.refused;
    }

    /// The dots, after a call that found this mode.
    fn draw_dots(&mut self, before: u8) {
        if self.session.settings.mode == 3 {
            for (row, letters) in braille(&self.session.dots).iter().enumerate() {
                self.text += &address(11 + row, 1);
                self.text.extend(letters);
            }
        } else if before == 3 {
            self.text += &address(10, 1);
            self.text += "\x1b[J";
        }
    }

    fn draw(&mut self) {
        let new: Vec<char> = self.session.shown.iter().map(|&code| letter(code)).collect();
        for row in 0..ROWS {
            let places = row * WIDTH..(row + 1) * WIDTH;
            self.text += &runs(row + 1, &self.letters[places.clone()], &new[places]);
        }
        self.letters = new;
        self.text += &address(9, 1);
        self.text += &format!("{} parameter {}\x1b[K", answer_text(&self.total), self.total.parameter);
        let settings = &self.session.settings;
        if settings.cursor == 1 {
            if let Some(place) = cursor_place(settings) {
                self.text += &address(place / WIDTH + 1, place % WIDTH + 1);
            }
        }
    }
}

/// The dots as rows of Braille letters. Unicode: point 1 is the lowest bit of a
/// letter's number above U+2800, and so on to point 8.
fn braille(dots: &[u8]) -> [[char; WIDTH]; ROWS] {
    // by the point's row and column
    const POINTS: [[u32; 2]; 4] = [[1, 4], [2, 5], [3, 6], [7, 8]];
    let mut numbers = [[0x2800; WIDTH]; ROWS];
    for vertical in 0..=LAST_VERTICAL {
        for horizontal in 0..=LAST_HORIZONTAL {
            if is_on(dots, Dot { horizontal, vertical }) {
                let point = POINTS[vertical % 8 / 2][horizontal % 6 / 3];
                numbers[vertical / 8][horizontal / 6] |= 1 << (point - 1);
            }
        }
    }
    numbers.map(|row| row.map(|number| char::from_u32(number).unwrap()))
}

/// Each run of letters of a row that are no longer those that stand there.
fn runs(row: usize, old: &[char], new: &[char]) -> String {
    let mut text = String::new();
    let mut column = 0;
    while column < WIDTH {
        let run = (column..WIDTH).take_while(|&c| old[c] != new[c]).count();
        if run > 0 {
            text += &address(row, column + 1);
            text.extend(&new[column..column + run]);
        }
        column += run.max(1);
    }
    text
}

/// "Cursor position" of ECMA-48, with two digits for the column.
fn address(row: usize, column: usize) -> String {
    format!("\x1b[{row};{column:02}H")
}

/// All that `glass` writes when its reads give these parts.
pub fn glass<'a>(parts: impl IntoIterator<Item = &'a [u8]>) -> String {
    let mut glass = Glass::open();
    for part in parts {
        if !glass.part(part) {
            break;
        }
    }
    glass.close()
}
