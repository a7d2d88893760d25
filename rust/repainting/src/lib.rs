//! Document 02, P12: "Measure both against a plain Rust program, written for this, that
//! repaints everything." This is that program, written from the papers for the benchmark.
//!
//! It takes what "Scales send 1 to 20 bytes at a time": printed bytes, codes 8, 10 and 13
//! and the cursor placing 61, in modes 0 to 3. The list of sequences is 61 alone here, and
//! code 12 is not sent. What such messages can't change is as after the opening: rule 1,
//! tracking on, secret off, no key line. What they can't show isn't kept: the marks of
//! lines that run on, the dots, the settings that are stored only.

#![forbid(unsafe_code)]

use std::ops::Range;

const BLANK: u8 = 32;

/// "Of the two screens each has its own cursor line, cursor column and window top."
#[derive(Clone, Copy)]
pub struct Screen {
    first_cell: usize,
    lines: usize,
    columns: usize,
    /// H
    height: usize,
    pub line: usize,
    pub column: usize,
    pub top: usize,
}

impl Screen {
    /// A line's cells: "line after line".
    fn cells(&self, line: usize) -> Range<usize> {
        let start = self.first_cell + (line - 1) * self.columns;
        start..start + self.columns
    }

    /// "the window is lines top to top+H−1"
    fn window(&self) -> Range<usize> {
        self.top..self.top + self.height
    }
}

/// The answer of document 01, with P10's parameter; no message here prints a copy.
#[derive(Clone, Copy, Debug, Default, PartialEq, Eq)]
pub struct Answer {
    pub number: u8,
    pub taken: usize,
    pub accepted: usize,
    pub refused: usize,
    pub first: u8,
    pub offset: usize,
    pub parameter: u8,
}

#[derive(Clone)]
pub struct Terminal {
    mode: u8,
    pub screens: [Screen; 2],
    /// 0 is screen 1, 1 is screen 2
    pub selected: usize,
    boundary: u8,
    pub cells: [u8; 3840],
    /// "first 640 marks (0 empty, other values set), then 640 codes"
    pub layer: [u8; 1280],
    /// "Row r, column c is byte 80(r−1)+c−1 of the shown screen."
    pub shown: [u8; 640],
}

impl Terminal {
    /// What an accepted 208 leaves behind the opening, by its bytes after 27, 208.
    pub fn new(mode: &[u8]) -> Terminal {
        // the table of modes, and P11's "one text screen of 8 lines by 80, H 8"
        let (lines, columns, height, boundary) = match *mode {
            [0, n1, n2] => ([n1, n2], [80, 80], 8, BLANK),
            [1, n1] => ([n1, n1], [39, 39], 16, BLANK),
            [2, n1, m, p] => ([n1, n1], [m, 79 - m], 8, p),
            [3] => ([8, 0], [80, 0], 8, BLANK),
            _ => panic!("not a mode: {mode:?}"),
        };
        // "Screen 1 begins at cell 0, line after line; screen 2 follows at once", and "puts
        // cursors and tops at 1"
        let ([lines1, lines2], [columns1, columns2]) = (lines.map(usize::from), columns.map(usize::from));
        let (line, column, top) = (1, 1, 1);
        let first = Screen { first_cell: 0, lines: lines1, columns: columns1, height, line, column, top };
        let second = Screen { first_cell: lines1 * columns1, lines: lines2, columns: columns2, ..first };
        Terminal {
            mode: mode[0],
            screens: [first, second],
            // "selects screen 1", "blanks all cells, empties the layer"
            selected: 0,
            boundary,
            cells: [BLANK; 3840],
            layer: [0; 1280],
            shown: [BLANK; 640],
        }
    }

    pub fn message(&mut self, message: &[u8]) -> Answer {
        // "2 | message over 4,096 bytes | whole call refused"
        if message.len() > 4096 {
            return Answer { number: 2, ..Answer::default() };
        }
        let mut answer = Answer { taken: message.len(), ..Answer::default() };
        let mut offset = 0;
        while offset < message.len() {
            if message[offset] == 27 {
                offset += self.sequence(&message[offset..], offset, &mut answer);
            } else {
                self.byte(message[offset]);
                offset += 1;
            }
        }
        // "It always ends by painting all 640 places."
        self.paint();
        answer
    }

    /// The sequence that these bytes begin with; how many of them it takes.
    fn sequence(&mut self, bytes: &[u8], offset: usize, answer: &mut Answer) -> usize {
        let (result, length) = match *bytes {
            [_, 61, m, n, ..] => (self.place_cursor(m.into(), n.into()), 4),
            // "12 | message ends inside a sequence | the rest skipped"
            [_] | [_, 61, ..] => (Err((12, 0)), bytes.len()),
            // "10 | byte after ESC is not in the list | 2 bytes skipped"
            _ => (Err((10, 0)), 2),
        };
        match result {
            Ok(()) => answer.accepted += 1,
            Err((number, parameter)) => {
                // "number and offset of the first refusal"
                if answer.refused == 0 {
                    (answer.first, answer.offset, answer.parameter) = (number, offset, parameter);
                }
                answer.refused += 1;
            }
        }
        length
    }

    /// "61: bytes m+31, n+31; m 1 to R, n 1 to columns"; else 11 and the "first bad
    /// parameter, counted from 1 after the second byte" (P10).
    fn place_cursor(&mut self, m: usize, n: usize) -> Result<(), (u8, u8)> {
        let screen = &mut self.screens[self.selected];
        if !(32..=screen.lines + 31).contains(&m) {
            return Err((11, 1));
        }
        if !(32..=screen.columns + 31).contains(&n) {
            return Err((11, 2));
        }
        screen.line = m - 31;
        screen.column = n - 31;
        // "a window that misses the cursor's line moves: for 61 as 215 does", which is
        // "top = cursor line − H/2, held in range", "from 1 to lines−H+1"
        if !screen.window().contains(&screen.line) {
            let greatest = screen.lines - screen.height + 1;
            let top = screen.line.saturating_sub(screen.height / 2).clamp(1, greatest);
            self.move_window(top);
        }
        Ok(())
    }

    /// "Bytes 32 to 255 print. Codes (house rule): 8 one column back, staying at column 1;
    /// 10 one line down; 13 to column 1; .. other codes below 32 but 27 do nothing."
    fn byte(&mut self, byte: u8) {
        let screen = &mut self.screens[self.selected];
        match byte {
            8 => screen.column = (screen.column - 1).max(1),
            10 => self.line_down(),
            13 => screen.column = 1,
            0..=31 => return,
            32..=255 => self.print(byte),
        }
        // "a window that misses the cursor's line moves: .. by the least amount"
        let screen = &self.screens[self.selected];
        if screen.line < screen.top {
            self.move_window(screen.line);
        } else if screen.line >= screen.top + screen.height {
            self.move_window(screen.line - screen.height + 1);
        }
    }

    /// "Printing stores the byte, empties the layer at the place where the picture without
    /// secret and layer shows that cell, if any, and moves right. From the last column it
    /// goes to column 1 of the next line."
    fn print(&mut self, byte: u8) {
        if let Some(place) = self.cursor_place() {
            // "emptying writes 0 in both"
            self.layer[place] = 0;
            self.layer[640 + place] = 0;
        }
        let screen = &mut self.screens[self.selected];
        self.cells[screen.cells(screen.line)][screen.column - 1] = byte;
        if screen.column < screen.columns {
            screen.column += 1;
        } else {
            screen.column = 1;
            self.line_down();
        }
    }

    /// "Going below the last line moves the screen's lines up one and blanks the last."
    fn line_down(&mut self) {
        let screen = &mut self.screens[self.selected];
        if screen.line < screen.lines {
            screen.line += 1;
        } else {
            let last = screen.cells(screen.lines);
            self.cells.copy_within(screen.cells(2).start..last.end, screen.first_cell);
            self.cells[last].fill(BLANK);
            // "a lifted screen .. empties the whole layer"
            self.layer.fill(0);
        }
    }

    /// To another top: "a top that changes empties the whole layer".
    fn move_window(&mut self, top: usize) {
        self.screens[self.selected].top = top;
        self.layer.fill(0);
    }

    /// Where `paint` shows the cursor's cell, if it does.
    fn cursor_place(&self) -> Option<usize> {
        let screen = &self.screens[self.selected];
        if !screen.window().contains(&screen.line) {
            return None;
        }
        let (row, column) = (screen.line - screen.top, screen.column - 1);
        Some(match self.mode {
            1 if row >= 8 => 80 * (row - 8) + 41 + column,
            2 if self.selected == 1 => 80 * row + self.screens[0].columns + 1 + column,
            _ => 80 * row + column,
        })
    }

    /// "The picture at row r, column c"; `row` is r−1.
    fn paint(&mut self) {
        let [first, second] = self.screens;
        let screen = self.screens[self.selected];
        for row in 0..8 {
            let shown = &mut self.shown[80 * row..80 * (row + 1)];
            match self.mode {
                // "the selected screen, line top+r−1"; in mode 3 "screen 1 under the layer"
                0 | 3 => shown.copy_from_slice(&self.cells[screen.cells(screen.top + row)]),
                // "columns 1 to 39 from line top+r−1; 40 and 41 blank; 42 to 80 from line top+7+r"
                1 => {
                    shown[..39].copy_from_slice(&self.cells[screen.cells(screen.top + row)]);
                    shown[39..41].fill(BLANK);
                    shown[41..].copy_from_slice(&self.cells[screen.cells(screen.top + 8 + row)]);
                }
                // "c≤m from screen 1 and c>m+1 from screen 2 .., each by its own top; column m+1
                // the boundary"
                _ => {
                    let m = first.columns;
                    shown[..m].copy_from_slice(&self.cells[first.cells(first.top + row)]);
                    shown[m] = self.boundary;
                    shown[m + 1..].copy_from_slice(&self.cells[second.cells(second.top + row)]);
                }
            }
        }
        // but "the layer's code if marked"
        for place in 0..640 {
            if self.layer[place] != 0 {
                self.shown[place] = self.layer[640 + place];
            }
        }
    }
}
