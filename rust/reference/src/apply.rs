//! What each item does: "each in turn changes what stands as its rule says,
//! with tracking, and a refusal changes nothing".

use super::dots;
use super::picture::{copy, copy_size, cursor_place, place};
use super::read::{idle, Item};
use super::settings::{mark_of, Place, Settings, BLANK, HOME, MARKS, MOST_LINES};

/// What stands, and the printer buffer of the call.
pub struct Standing<'a> {
    pub settings: Settings,
    pub cells: &'a mut [u8],
    pub layer: &'a mut [u8],
    pub dots: &'a mut [u8],
    pub printer: &'a mut [u8],
    pub printed: usize,
}

/// How tracking moves a window that misses the cursor's line.
enum Tracking {
    Least,
    Centre,
}

impl Standing<'_> {
    /// The printer room left in this call.
    pub fn room(&self) -> usize {
        self.printer.len() - self.printed
    }

    pub fn apply(&mut self, item: &Item) {
        match *item {
            Item::Printed(byte) => {
                self.print(byte);
                self.track(Tracking::Least);
            }
            Item::Code(code) => self.code(code),
            Item::Sequence { second, parameters } => self.sequence(second, parameters),
            Item::Refusal { .. } => {}
        }
    }

    /// "8 one column back, staying at column 1; 10 one line down; 13 to
    /// column 1; 12 as ESC 42; other codes below 32 but 27 do nothing."
    /// "Codes 8, 10, 12, 13 and accepted 42, 61 clear the flag".
    fn code(&mut self, code: u8) {
        if matches!(code, 8 | 10 | 12 | 13) {
            self.here_mut().waiting = 0;
        }
        match code {
            8 => {
                let column = self.here().column;
                self.here_mut().column = if column > 1 { column - 1 } else { 1 };
                self.track(Tracking::Least);
            }
            10 => {
                self.line_down();
                self.track(Tracking::Least);
            }
            12 => self.clear_screen(),
            13 => {
                self.here_mut().column = 1;
                self.track(Tracking::Least);
            }
            _ => {}
        }
    }

    /// The sequences, one group of rules after the other.
    fn sequence(&mut self, second: u8, p: &[u8]) {
        if idle(second, &self.settings) {
            return;
        }
        match second {
            37 => {
                self.print(p[0]);
                self.track(Tracking::Least);
            }
            42 => self.clear_screen(),
            61 => {
                self.here_mut().line = p[0] - 31;
                self.here_mut().column = p[1] - 31;
                self.here_mut().waiting = 0;
                self.track(Tracking::Centre);
            }
            80 => self.append_copy(),
            84 | 89 => self.blank_from_cursor(second),
            144 | 145 => self.scroll(second, usize::from(p[0]), usize::from(p[1])),
            150 | 151 | 212 | 213 | 215 => self.move_window(second),
            208 => self.set_mode(p),
            209 => {
                self.settings.selected = p[0];
                self.empty_layer();
            }
            210 => self.mark(usize::from(p[0]), usize::from(p[1]), p[2]),
            211 => self.set_display(p[0]),
            198 if self.settings.mode == 3 => dots::draw(self.dots, p),
            199 if self.settings.mode == 3 => dots::set(self.dots, p),
            // "198, 199: no operation ... 246: no effect."
            198 | 199 | 246 => {}
            _ => self.store(second, p),
        }
    }

    /// The sequences that only store a setting.
    fn store(&mut self, second: u8, p: &[u8]) {
        let settings = &mut self.settings;
        match second {
            50 => settings.cursor = 0,
            51 => settings.cursor = 1,
            123 => settings.secret = 1,
            125 => settings.secret = 0,
            148 => settings.step = p[0],
            // "149: 0 tracking, 1 not."
            149 => settings.tracking = 1 - p[0],
            214 => settings.kind = p[0],
            224 => {
                let start = 8 * usize::from(p[0] - 224);
                settings.patterns[start..start + 8].copy_from_slice(&p[1..9]);
            }
            _ => self.store_key(second, p),
        }
    }

    fn store_key(&mut self, second: u8, p: &[u8]) {
        let keys = &mut self.settings.keys;
        match second {
            67 => keys.charset = p[0],
            160 => keys.leds[0] = 1,
            161 => keys.leds[0] = 0,
            162 => keys.leds[1] = 1,
            163 => keys.leds[1] = 0,
            164 => keys.leds[2] = 1,
            165 => keys.leds[2] = 0,
            176 => keys.strings = 0,
            177 => keys.strings = 1,
            240 => keys.repeat = p[0],
            241 => keys.delay = p[0],
            242 => keys.interval = p[0],
            243 => keys.arrows[0..4].copy_from_slice(p),
            244 => keys.arrows[4..8].copy_from_slice(p),
            245 => keys.arrows[8..12].copy_from_slice(p),
            247 => keys.shift = p[0],
            _ => unreachable!("a sequence is read only with a byte of the list"),
        }
    }

    // ---- the selected screen ----

    fn screen(&self) -> usize {
        usize::from(self.settings.selected)
    }

    fn here(&self) -> Place {
        self.settings.places[self.screen()]
    }

    fn here_mut(&mut self) -> &mut Place {
        let screen = self.screen();
        &mut self.settings.places[screen]
    }

    /// R, the lines of the selected screen.
    fn lines(&self) -> usize {
        self.settings.lines(self.screen())
    }

    fn columns(&self) -> usize {
        self.settings.columns(self.screen())
    }

    fn cell(&self, line: usize, column: usize) -> usize {
        self.settings.cell(self.screen(), line, column)
    }

    /// Whether the line is marked as one that runs on.
    fn runs_on(&self, line: usize) -> bool {
        self.settings.marks[mark_of(self.screen(), line)] == 1
    }

    fn set_runs_on(&mut self, line: usize, runs_on: bool) {
        self.settings.marks[mark_of(self.screen(), line)] = u8::from(runs_on);
    }

    /// A line's mark goes where its cells go, and with them.
    fn blank_line(&mut self, line: usize) {
        self.blank_rest(line, 1);
    }

    fn blank_rest(&mut self, line: usize, from: usize) {
        for column in from..=self.columns() {
            let at = self.cell(line, column);
            self.cells[at] = BLANK;
        }
        self.set_runs_on(line, false);
    }

    fn copy_line(&mut self, from: usize, to: usize) {
        for column in 1..=self.columns() {
            let (source, target) = (self.cell(from, column), self.cell(to, column));
            self.cells[target] = self.cells[source];
        }
        self.set_runs_on(to, self.runs_on(from));
    }

    // ---- printing and moving the cursor ----

    /// "Printing stores the byte, empties the layer at the place where the
    /// picture without secret and layer shows that cell, if any, and moves
    /// right. From the last column it goes to column 1 of the next line." By
    /// rule 2 "printing there stores the byte and sets the screen's waiting flag;
    /// the next printed character (37's too) first steps to the next line".
    fn print(&mut self, byte: u8) {
        if self.here().waiting == 1 {
            self.here_mut().waiting = 0;
            self.next_line();
        }
        let here = self.here();
        let at = self.cell(usize::from(here.line), usize::from(here.column));
        self.cells[at] = byte;
        if let Some(shown_at) = cursor_place(&self.settings) {
            // "emptying writes 0 in both"
            self.layer[shown_at] = 0;
            self.layer[MARKS + shown_at] = 0;
        }
        if usize::from(here.column) < self.columns() {
            self.here_mut().column = here.column + 1;
        } else if self.settings.rule == 2 {
            self.here_mut().waiting = 1;
        } else {
            self.next_line();
        }
    }

    /// "Printing in the last column sets the mark on the line left".
    fn next_line(&mut self) {
        let left = usize::from(self.here().line);
        self.set_runs_on(left, true);
        self.here_mut().column = 1;
        self.line_down();
    }

    /// "Going below the last line moves the screen's lines up one and blanks
    /// the last." A lifted screen empties the whole layer, and "carries marks
    /// along".
    fn line_down(&mut self) {
        if usize::from(self.here().line) < self.lines() {
            self.here_mut().line += 1;
            return;
        }
        self.move_lines_up(1, self.lines());
        self.empty_layer();
    }

    /// "While tracking is on, ... a window that misses the cursor's line
    /// moves: for 61 as 215 does, else by the least amount."
    fn track(&mut self, how: Tracking) {
        let line = usize::from(self.here().line);
        let top = usize::from(self.here().top);
        let height = self.settings.height();
        if self.settings.tracking == 0 || (top <= line && line < top + height) {
            return;
        }
        match how {
            Tracking::Centre => self.centre(),
            Tracking::Least if line < top => self.set_top(line),
            Tracking::Least => self.set_top(line - height + 1),
        }
    }

    // ---- the window ----

    fn move_window(&mut self, second: u8) {
        let top = usize::from(self.here().top);
        let step = usize::from(self.settings.step);
        let greatest = self.settings.greatest_top(self.screen());
        match second {
            150 => self.set_top(top.saturating_sub(step).max(1)),
            151 => self.set_top((top + step).min(greatest)),
            212 => self.set_top(1),
            213 => self.set_top(greatest),
            _ => self.centre(),
        }
    }

    /// "215: top = cursor line − H/2, held in range."
    fn centre(&mut self) {
        let line = usize::from(self.here().line);
        let half = self.settings.height() / 2;
        let greatest = self.settings.greatest_top(self.screen());
        self.set_top(line.saturating_sub(half).clamp(1, greatest));
    }

    /// "a top that changes empties the whole layer"
    fn set_top(&mut self, top: usize) {
        if usize::from(self.here().top) != top {
            self.here_mut().top = top as u8;
            self.empty_layer();
        }
    }

    /// "A changed 211 empties the layer, holds both tops in their new range
    /// and lowers step to H if above."
    fn set_display(&mut self, display: u8) {
        if self.settings.display == display {
            return;
        }
        self.settings.display = display;
        self.empty_layer();
        for screen in 0..2 {
            let greatest = self.settings.greatest_top(screen) as u8;
            let top = &mut self.settings.places[screen].top;
            *top = greatest.min(*top);
        }
        let height = self.settings.height() as u8;
        self.settings.step = height.min(self.settings.step);
    }

    // ---- blanking and scrolling ----

    /// "42: blanks the screen, cursor home, top 1, layer empty", "42 clears the
    /// screen's" marks, and "42 in mode 3 .. the dots".
    fn clear_screen(&mut self) {
        for line in 1..=self.lines() {
            self.blank_line(line);
        }
        *self.here_mut() = HOME;
        self.empty_layer();
        if self.settings.mode == 3 {
            self.dots.fill(0);
        }
    }

    /// "84 blanks through the first unmarked line at or after the cursor's and
    /// clears those marks; 89 clears marks from the cursor's line on" and blanks
    /// to the end of the screen. "Both take in the cursor's cell."
    fn blank_from_cursor(&mut self, second: u8) {
        let line = usize::from(self.here().line);
        let last = if second == 89 { self.lines() } else { self.first_unmarked(line) };
        self.blank_rest(line, self.here().column.into());
        for below in line + 1..=last {
            self.blank_line(below);
        }
        self.empty_layer();
    }

    /// At or after this line; the screen's last one is never marked.
    fn first_unmarked(&self, line: usize) -> usize {
        let mut first = line;
        while self.runs_on(first) {
            first += 1;
        }
        first
    }

    /// "Within lines a+1 to a+m, contents move up (144) or down (145) by one",
    /// and "marks move with lines; the blank line, the line above the region (if
    /// any) and the region's last two lines (or only line) end unmarked".
    fn scroll(&mut self, second: u8, a: usize, m: usize) {
        if second == 144 {
            self.move_lines_up(a + 1, a + m);
        } else {
            self.move_lines_down(a + 1, a + m);
        }
        if a > 0 {
            self.set_runs_on(a, false);
        }
        let last_two = if m > 1 { a + m - 1 } else { a + m };
        for line in last_two..=a + m {
            self.set_runs_on(line, false);
        }
        self.empty_layer();
    }

    fn move_lines_up(&mut self, first: usize, last: usize) {
        for line in first..last {
            self.copy_line(line + 1, line);
        }
        self.blank_line(last);
    }

    fn move_lines_down(&mut self, first: usize, last: usize) {
        for line in (first + 1..=last).rev() {
            self.copy_line(line - 1, line);
        }
        self.blank_line(first);
    }

    // ---- the layer, the printed copy, the mode ----

    fn empty_layer(&mut self) {
        self.layer.fill(0);
    }

    /// "Marking a place writes 1 and its code"
    fn mark(&mut self, row: usize, column: usize, code: u8) {
        self.layer[place(row, column)] = 1;
        self.layer[MARKS + place(row, column)] = code;
    }

    fn append_copy(&mut self) {
        let room = &mut self.printer[self.printed..];
        copy(&self.settings, self.cells, self.layer, self.dots, room);
        self.printed += copy_size(&self.settings);
    }

    /// "An accepted 208 blanks all cells, empties the layer, puts cursors and
    /// tops at 1, selects screen 1, sets step 1 and tracking on. Other
    /// settings stay, save the boundary in mode 2", and the marks: "208 all". "each
    /// accepted 208 .. clear the dots", and "208,3 sets type 3 and key display 1".
    fn set_mode(&mut self, p: &[u8]) {
        self.cells.fill(BLANK);
        self.empty_layer();
        self.dots.fill(0);
        let settings = &mut self.settings;
        settings.mode = p[0];
        let (lines, columns) = match *p {
            [0, first, second] => ((first, second), (80, 80)),
            [1, both] => ((both, both), (39, 39)),
            [2, both, m, _] => ((both, both), (m, 79 - m)),
            // "one text screen of 8 lines by 80"
            _ => ((8, 0), (80, 0)),
        };
        (settings.lines1, settings.lines2) = lines;
        (settings.columns1, settings.columns2) = columns;
        match p[0] {
            2 => settings.boundary = p[3],
            3 => (settings.kind, settings.display) = (3, 1),
            _ => {}
        }
        settings.places = [HOME, HOME];
        settings.marks = [0; 2 * MOST_LINES];
        settings.selected = 0;
        settings.step = 1;
        settings.tracking = 1;
    }
}
