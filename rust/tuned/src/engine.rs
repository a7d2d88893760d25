//! The stores, the selected screen's measures, text, windows and painting.

use crate::dots::Dots;
use crate::rows;
use crate::sequences::unfinished;
use crate::shorts::Glass;
use reference::{Answer, Place, Settings};

pub struct Stores<'a> {
    pub cells: &'a mut [u8; 3840],
    pub marks: &'a mut [u8; 640],
    pub codes: &'a mut [u8; 640],
    pub dots: &'a mut Dots,
}

impl<'a> Stores<'a> {
    pub fn new(cells: &'a mut [u8], layer: &'a mut [u8], dots: &'a mut [u8]) -> Option<Stores<'a>> {
        let layer: &mut [u8; 1280] = layer.try_into().ok()?;
        let (marks, codes) = layer.split_at_mut(640);
        Some(Stores {
            cells: cells.try_into().ok()?,
            marks: marks.try_into().ok()?,
            codes: codes.try_into().ok()?,
            dots: dots.try_into().ok()?,
        })
    }
}

/// With a glass on which a short message shows at once what it prints; other calls have
/// none, and pay nothing for it.
pub struct Engine<'a, G> {
    pub settings: &'a mut Settings,
    pub stores: Stores<'a>,
    pub printer: &'a mut [u8],
    pub printed: usize,
    /// The offset of the first byte that is served.
    pub from: u32,
    /// The layer is known to hold zeros only.
    empty: bool,
    /// The selected screen: its first cell, its measures, its place.
    base: usize,
    pub lines: usize,
    pub columns: usize,
    /// the rows that show it, and H
    rows: usize,
    pub height: usize,
    pub line: usize,
    pub column: usize,
    pub top: usize,
    /// the cursor waits in the last column
    pub waiting: bool,
    pub glass: G,
}

impl<'a, G: Glass> Engine<'a, G> {
    pub fn new(
        settings: &'a mut Settings,
        stores: Stores<'a>,
        printer: &'a mut [u8],
        glass: G,
    ) -> Engine<'a, G> {
        let mut engine = Engine {
            settings,
            stores,
            printer,
            printed: 0,
            from: 0,
            empty: false,
            base: 0,
            lines: 0,
            columns: 0,
            rows: 0,
            height: 0,
            line: 0,
            column: 0,
            top: 0,
            waiting: false,
            glass,
        };
        engine.load();
        engine
    }

    /// Takes the selected screen's measures and place out of the settings.
    pub fn load(&mut self) {
        let s = &*self.settings;
        let second = s.selected == 1;
        let first_size = usize::from(s.lines1) * usize::from(s.columns1);
        self.base = if second { first_size } else { 0 };
        self.lines = usize::from(if second { s.lines2 } else { s.lines1 });
        self.columns = usize::from(if second { s.columns2 } else { s.columns1 });
        self.rows = rows(s).into();
        self.height = if s.mode == 1 { 2 * self.rows } else { self.rows };
        let place = s.places[usize::from(second)];
        self.line = usize::from(place.line);
        self.column = usize::from(place.column);
        self.top = usize::from(place.top);
        self.waiting = place.waiting == 1;
    }

    /// Puts the selected screen's place back into the settings.
    pub fn save(&mut self) {
        self.settings.places[usize::from(self.settings.selected == 1)] = Place {
            line: self.line as u8,
            column: self.column as u8,
            top: self.top as u8,
            waiting: self.waiting.into(),
        };
    }

    /// Serves the bytes from `at` on and returns where it stopped: at the end,
    /// or if more comes at a sequence that is not finished.
    pub fn serve<const MORE: bool>(&mut self, message: &[u8], mut at: usize, answer: &mut Answer) -> usize {
        while at < message.len() {
            match message[at] {
                27 if MORE && unfinished(&message[at..]) => break,
                27 => at += self.escape(message, at, answer),
                32.. => {
                    let end = at + text_length(&message[at..]);
                    self.text(&message[at..end]);
                    at = end;
                }
                code => {
                    self.control(code);
                    at += 1;
                }
            }
        }
        answer.taken = message.len() as u32;
        answer.printed = self.printed;
        at
    }

    fn control(&mut self, code: u8) {
        match code {
            8 => self.column -= usize::from(self.column > 1),
            10 => self.down(),
            13 => self.column = 1,
            12 => return self.clear(),
            _ => return,
        }
        self.waiting = false;
        self.follow();
    }

    /// Stores a run of printed bytes, a line's part at a time.
    pub fn text(&mut self, mut run: &[u8]) {
        while !run.is_empty() {
            if self.waiting {
                self.waiting = false;
                self.step();
            }
            let space = self.columns - self.column + 1;
            let (now, later) = run.split_at(run.len().min(space));
            let at = self.cursor_cell();
            self.stores.cells[at..at + now.len()].copy_from_slice(now);
            self.show(now);
            if now.len() < space {
                self.column += now.len();
            } else if self.settings.rule == 2 {
                self.column = self.columns;
                self.waiting = true;
            } else {
                // All but the last of these bytes left the cursor on this
                // line, and the window followed it here first.
                if now.len() > 1 {
                    self.follow();
                }
                self.step();
            }
            self.follow();
            run = later;
        }
    }

    /// To the start of the next line; this one runs on.
    fn step(&mut self) {
        self.column = 1;
        let left = self.line - 1;
        self.runs()[left] = 1;
        self.down();
    }

    /// The marks of the selected screen's lines, which run on where they are 1.
    pub fn runs(&mut self) -> &mut [u8] {
        let (first, second) = self.settings.marks.split_at_mut(48);
        if self.settings.selected == 1 {
            second
        } else {
            first
        }
    }

    pub fn cursor_cell(&self) -> usize {
        self.base + (self.line - 1) * self.columns + self.column - 1
    }

    /// The cells of lines `from` to before `to`, counted from 0.
    pub fn block(&self, from: usize, to: usize) -> std::ops::Range<usize> {
        self.base + from * self.columns..self.base + to * self.columns
    }

    /// Empties the layer where these next cells of the line are shown, and shows them
    /// on the glass of a short message.
    fn show(&mut self, text: &[u8]) {
        let row = self.line.wrapping_sub(self.top);
        if self.empty && !G::SHOWS || row >= self.height {
            return;
        }
        let left = match (self.settings.mode, self.settings.selected) {
            (2, 1) => usize::from(self.settings.columns1) + 1,
            (1, _) if row >= self.rows => 41,
            _ => 0,
        };
        let row = if row >= self.rows { row - self.rows } else { row };
        let at = row * 80 + left + self.column - 1;
        self.stores.marks[at..at + text.len()].fill(0);
        self.stores.codes[at..at + text.len()].fill(0);
        self.glass.show(at, text, self.settings.secret == 1);
    }

    fn down(&mut self) {
        if self.line < self.lines {
            self.line += 1;
            return;
        }
        let (moved, last) = (self.block(1, self.lines), self.block(self.lines - 1, self.lines));
        self.glass.widen();
        self.stores.cells.copy_within(moved, self.base);
        self.stores.cells[last].fill(b' ');
        let lines = self.lines;
        let runs = self.runs();
        runs.copy_within(1..lines, 0);
        runs[lines - 1] = 0;
        self.wipe();
    }

    pub fn follow(&mut self) {
        if self.settings.tracking == 0 {
            return;
        }
        if self.line < self.top {
            self.move_top(self.line);
        } else if self.line >= self.top + self.height {
            self.move_top(self.line - self.height + 1);
        }
    }

    pub fn move_top(&mut self, top: usize) {
        if top != self.top {
            self.top = top;
            self.glass.widen();
            self.wipe();
        }
    }

    pub fn wipe(&mut self) {
        if !self.empty {
            self.stores.marks.fill(0);
            self.stores.codes.fill(0);
            self.empty = true;
        }
    }

    pub fn mark(&mut self, at: usize, code: u8) {
        self.stores.marks[at] = 1;
        self.stores.codes[at] = code;
        self.empty = false;
    }

    pub fn clear(&mut self) {
        self.glass.widen();
        let all = self.block(0, self.lines);
        self.stores.cells[all].fill(b' ');
        (self.line, self.column, self.top) = (1, 1, 1);
        self.waiting = false;
        self.runs().fill(0);
        self.wipe();
        if self.settings.mode == 3 {
            self.stores.dots.fill(0);
        }
    }

    pub fn paint(&self, picture: &mut [u8; 640]) {
        if self.settings.secret == 1 {
            picture.fill(b' ');
            return;
        }
        match self.settings.mode {
            0 | 3 if self.rows == 8 => {
                picture.copy_from_slice(&self.stores.cells[self.block(self.top - 1, self.top + 7)]);
            }
            0 => picture[..560].copy_from_slice(&self.stores.cells[self.block(self.top - 1, self.top + 6)]),
            1 => self.paint_halves(picture),
            _ => self.paint_both(picture),
        }
        if self.rows < 8 {
            picture[560..].copy_from_slice(&self.settings.texts);
        }
        if !self.empty {
            let (marks, codes) = (&*self.stores.marks, &*self.stores.codes);
            // without a branch, so that many places are done at once
            for at in 0..640 {
                let keep = u8::from(marks[at] != 0).wrapping_sub(1);
                picture[at] = picture[at] & keep | codes[at] & !keep;
            }
        }
    }

    fn paint_halves(&self, picture: &mut [u8; 640]) {
        let window = &self.stores.cells[self.block(self.top - 1, self.top - 1 + self.height)];
        let (left, right) = window.split_at(self.rows * 39);
        let halves = left.chunks_exact(39).zip(right.chunks_exact(39));
        for (row, (left, right)) in picture.chunks_exact_mut(80).zip(halves) {
            row[..39].copy_from_slice(left);
            row[39..41].fill(b' ');
            row[41..].copy_from_slice(right);
        }
    }

    /// The tops of both screens.
    pub fn tops(&self) -> [usize; 2] {
        let mut tops = self.settings.places.map(|place| usize::from(place.top));
        tops[usize::from(self.settings.selected == 1)] = self.top;
        tops
    }

    fn paint_both(&self, picture: &mut [u8; 640]) {
        let s = &*self.settings;
        let m = usize::from(s.columns1);
        let tops = self.tops();
        let second = usize::from(s.lines1) * m;
        let left = self.stores.cells[(tops[0] - 1) * m..].chunks_exact(m);
        let right = self.stores.cells[second + (tops[1] - 1) * (79 - m)..].chunks_exact(79 - m);
        for ((row, left), right) in picture.chunks_exact_mut(80).take(self.rows).zip(left).zip(right) {
            row[..m].copy_from_slice(left);
            row[m] = s.boundary;
            row[m + 1..].copy_from_slice(right);
        }
    }

    /// The room that a copy takes.
    pub fn copy_size(&self) -> usize {
        if self.settings.mode == 3 {
            3840
        } else {
            656
        }
    }

    /// Appends a copy of the picture, or the dots; there is room.
    pub fn copy_out(&mut self) {
        if self.settings.mode == 3 {
            self.printer[self.printed..self.printed + 3840].copy_from_slice(self.stores.dots);
            self.printed += 3840;
            return;
        }
        let mut picture = [0; 640];
        self.paint(&mut picture);
        let room = &mut self.printer[self.printed..self.printed + 656];
        for (out, row) in room.chunks_exact_mut(82).zip(picture.chunks_exact(80)) {
            for (to, &code) in out.iter_mut().zip(row) {
                *to = code.max(b' ');
            }
            out[80..].copy_from_slice(&[13, 10]);
        }
        self.printed += 656;
    }
}

/// How many bytes from the start print: whole blocks first, then the rest.
fn text_length(bytes: &[u8]) -> usize {
    let mut length = 0;
    for block in bytes.chunks_exact(16) {
        if block.iter().fold(false, |code, &byte| code | (byte < 32)) {
            break;
        }
        length += 16;
    }
    let rest = &bytes[length..];
    length + rest.iter().position(|&byte| byte < 32).unwrap_or(rest.len())
}
