//! The sequences: one table of lengths, one judgement, one dispatch.

use crate::dots;
use crate::engine::Engine;
use crate::rows;
use crate::shorts::Glass;
use reference::{Answer, Place, Settings};

/// Length by second byte, 0 for none. 208 stands with its shortest.
const LENGTHS: [u8; 256] = lengths();

const fn lengths() -> [u8; 256] {
    let groups: [(u8, &[u8]); 8] = [
        (2, &[42, 50, 51, 80, 84, 89, 123, 125, 150, 151, 160, 161, 162, 163, 164, 165]),
        (2, &[176, 177, 212, 213, 215, 246]),
        (3, &[37, 67, 148, 149, 208, 209, 211, 214, 240, 241, 242, 247]),
        (4, &[61, 144, 145]),
        (5, &[210]),
        (6, &[199, 243, 244, 245]),
        (11, &[224]),
        (13, &[198]),
    ];
    let mut table = [0; 256];
    let mut group = 0;
    while group < groups.len() {
        let mut at = 0;
        while at < groups[group].1.len() {
            table[groups[group].1[at] as usize] = groups[group].0;
            at += 1;
        }
        group += 1;
    }
    table
}

/// The bytes of the sequence at the start of `rest`, as far as they are known.
fn length(rest: &[u8], second: u8) -> usize {
    listed(second, rest.get(2))
}

/// The bytes of a sequence by its second one and, of 208, the one behind it.
pub fn listed(second: u8, third: Option<&u8>) -> usize {
    match third {
        Some(&mode) if second == 208 => [5, 4, 6, 3][usize::from(mode.min(3))],
        _ => usize::from(LENGTHS[usize::from(second)]),
    }
}

/// Whether a sequence, from its 27 on, goes on behind these bytes.
pub fn unfinished(rest: &[u8]) -> bool {
    rest.get(1).is_none_or(|&second| rest.len() < length(rest, second))
}

pub fn is_charset(letter: u8) -> bool {
    matches!(letter, b'D'..=b'G' | b'I' | b'N' | b'S' | b'U' | b'W')
}

pub fn is_shift(number: u8) -> bool {
    matches!(number, 0 | 2 | 4 | 6 | 16 | 18 | 32 | 34 | 64 | 66)
}

/// `byte` lies in `low` to `high`.
fn within(byte: u8, low: usize, high: usize) -> bool {
    usize::from(byte) >= low && usize::from(byte) <= high
}

/// Which of two parameters is the first that does not fit, 0 if both do.
fn earlier(one: bool, two: bool) -> u8 {
    match (one, two) {
        (false, _) => 1,
        (_, false) => 2,
        _ => 0,
    }
}

/// The same of a mode setting, whose mode byte stands before the others.
fn misfit_of_mode(p: &[u8]) -> u8 {
    let after = match p[0] {
        0 => earlier(p[1] >= 8, p[2] >= 8 && u32::from(p[1]) + u32::from(p[2]) <= 48),
        1 => earlier(within(p[1], 16, 48), true),
        2 => earlier(within(p[1], 8, 48), within(p[2], 1, 78)),
        3 => 0,
        _ => return 1,
    };
    if after == 0 {
        0
    } else {
        after + 1
    }
}

/// What parameters are judged by: the mode, and the selected screen's measures.
pub struct Limits {
    pub mode: u8,
    pub lines: usize,
    pub columns: usize,
    pub height: usize,
}

/// What does nothing in mode 3: there is no other screen and no other window.
fn idle(mode: u8, second: u8) -> bool {
    mode == 3 && matches!(second, 148..=151 | 209 | 211..=215)
}

impl Limits {
    pub fn of(s: &Settings) -> Limits {
        let (lines, columns) = if s.selected == 0 { (s.lines1, s.columns1) } else { (s.lines2, s.columns2) };
        let height = rows(s) << u8::from(s.mode == 1);
        Limits { mode: s.mode, lines: lines.into(), columns: columns.into(), height: height.into() }
    }

    /// The first parameter that does not fit, 0 if all do.
    pub fn misfit(&self, second: u8, p: &[u8]) -> u8 {
        match second {
            _ if idle(self.mode, second) => 0,
            198 if self.mode == 3 => dots::misfit_of_line(p),
            199 if self.mode == 3 => dots::misfit_of_dot(p),
            61 => earlier(within(p[0], 32, self.lines + 31), within(p[1], 32, self.columns + 31)),
            144 | 145 => {
                let (a, m) = (usize::from(p[0]), usize::from(p[1]));
                earlier(a < self.lines, m > 0 && a + m <= self.lines)
            }
            208 => misfit_of_mode(p),
            210 => earlier(within(p[0], 1, 8), within(p[1], 1, 80)),
            _ => u8::from(!self.fits(second, p)),
        }
    }

    /// The sequences of which the first parameter alone is judged.
    fn fits(&self, second: u8, p: &[u8]) -> bool {
        match second {
            67 => is_charset(p[0]),
            148 => within(p[0], 1, self.height),
            149 | 209 | 211 | 240 => p[0] < 2,
            214 => p[0] < 4,
            224 => within(p[0], 224, 254),
            241 | 242 => within(p[0], 1, 127),
            247 => is_shift(p[0]),
            _ => true,
        }
    }
}

impl<G: Glass> Engine<'_, G> {
    fn limits(&self) -> Limits {
        let Engine { lines, columns, height, .. } = *self;
        Limits { mode: self.settings.mode, lines, columns, height }
    }

    /// Serves the sequence at `at` and returns its bytes.
    pub fn escape(&mut self, message: &[u8], at: usize, answer: &mut Answer) -> usize {
        let rest = &message[at..];
        let (number, parameter, length) = self.judge(rest);
        if number == 0 {
            answer.accepted += 1;
            self.glass.accepted(rest[1]);
            // 27, 209 at the very end stands for 27, 209, 0.
            let parameters = if rest.len() == 2 && rest[1] == 209 { &[0][..] } else { &rest[2..length] };
            self.obey(rest[1], parameters);
        } else {
            if answer.refused == 0 {
                answer.first = number;
                answer.offset = self.from + at as u32;
                answer.parameter = parameter;
            }
            answer.refused += 1;
        }
        length
    }

    /// 0 or the refusal's number, 0 or the bad parameter, and the bytes.
    fn judge(&self, rest: &[u8]) -> (u8, u8, usize) {
        let Some(&second) = rest.get(1) else {
            return (12, 0, 1);
        };
        let length = length(rest, second);
        if length == 0 {
            return (10, 0, 2);
        }
        if rest.len() == 2 && second == 209 {
            return (0, 0, 2);
        }
        if rest.len() < length {
            return (12, 0, rest.len());
        }
        let (number, parameter) = match second {
            80 if self.printer.len() - self.printed < self.copy_size() => (13, 0),
            _ => match self.limits().misfit(second, &rest[2..length]) {
                0 => (0, 0),
                parameter => (11, parameter),
            },
        };
        (number, parameter, length)
    }

    fn obey(&mut self, second: u8, p: &[u8]) {
        if idle(self.settings.mode, second) {
            return;
        }
        match second {
            37 => self.text(p),
            42 => self.clear(),
            61 => self.put_cursor(usize::from(p[0]) - 31, usize::from(p[1]) - 31),
            80 => self.copy_out(),
            84 => self.blank_run(),
            89 => self.blank_to(self.lines),
            144 | 145 => self.scroll(second == 144, usize::from(p[0]), usize::from(p[1])),
            150 => self.move_top(self.top.saturating_sub(self.settings.step.into()).max(1)),
            151 => self.move_top((self.top + usize::from(self.settings.step)).min(self.last_top())),
            212 => self.move_top(1),
            213 => self.move_top(self.last_top()),
            215 => self.centre(),
            208 => self.set_mode(p),
            209 => {
                self.save();
                self.settings.selected = p[0];
                self.load();
                self.wipe();
            }
            210 => self.mark(usize::from(p[0]) * 80 + usize::from(p[1]) - 81, p[2]),
            211 => self.display(p[0]),
            198 | 199 if self.settings.mode != 3 => {}
            198 => dots::draw(self.stores.dots, p),
            199 => dots::set(self.stores.dots, p),
            _ => self.keep(second, p),
        }
    }

    /// The sequences that keep a number for later; 246 keeps none.
    fn keep(&mut self, second: u8, p: &[u8]) {
        let s = &mut *self.settings;
        match second {
            50 | 51 => s.cursor = second - 50,
            123 => s.secret = 1,
            125 => s.secret = 0,
            148 => s.step = p[0],
            149 => s.tracking = p[0] ^ 1,
            214 => s.kind = p[0],
            224 => {
                let at = usize::from(p[0] - 224) * 8;
                s.patterns[at..at + 8].copy_from_slice(&p[1..]);
            }
            67 => s.keys.charset = p[0],
            160..=165 => s.keys.leds[usize::from(second - 160) / 2] = (second & 1) ^ 1,
            176 | 177 => s.keys.strings = second - 176,
            240 => s.keys.repeat = p[0],
            241 => s.keys.delay = p[0],
            242 => s.keys.interval = p[0],
            243..=245 => {
                let at = usize::from(second - 243) * 4;
                s.keys.arrows[at..at + 4].copy_from_slice(p);
            }
            247 => s.keys.shift = p[0],
            _ => {}
        }
    }

    /// Row 8 to the key texts or back to the screens.
    fn display(&mut self, display: u8) {
        if display == self.settings.display {
            return;
        }
        self.save();
        self.settings.display = display;
        self.load();
        let (s, height) = (&mut *self.settings, self.height as u8);
        s.step = s.step.min(height);
        s.places[0].top = s.places[0].top.min(s.lines1 - height + 1);
        s.places[1].top = s.places[1].top.min(s.lines2 - height + 1);
        self.load();
        self.wipe();
    }

    fn last_top(&self) -> usize {
        self.lines - self.height + 1
    }

    fn centre(&mut self) {
        let wanted = self.line.saturating_sub(self.height / 2);
        self.move_top(wanted.max(1).min(self.last_top()));
    }

    fn put_cursor(&mut self, line: usize, column: usize) {
        (self.line, self.column) = (line, column);
        self.waiting = false;
        let missed = line < self.top || line >= self.top + self.height;
        if missed && self.settings.tracking == 1 {
            self.centre();
        }
    }

    /// Blanks from the cursor's cell to the end of its logical line.
    fn blank_run(&mut self) {
        let line = self.line;
        let further = self.runs()[line - 1..].iter().take_while(|&&mark| mark == 1).count();
        self.blank_to(line + further);
    }

    /// Blanks from the cursor's cell to the end of line `last`.
    fn blank_to(&mut self, last: usize) {
        let end = self.block(0, last).end;
        let start = self.cursor_cell();
        self.stores.cells[start..end].fill(b' ');
        let line = self.line;
        self.runs()[line - 1..last].fill(0);
        self.wipe();
    }

    fn scroll(&mut self, up: bool, a: usize, m: usize) {
        let (region, upper, lower) =
            (self.block(a, a + m), self.block(a, a + m - 1), self.block(a + 1, a + m));
        let width = self.columns;
        let cells = &mut *self.stores.cells;
        if up {
            cells.copy_within(lower, region.start);
            cells[region.end - width..region.end].fill(b' ');
        } else {
            cells.copy_within(upper, region.start + width);
            cells[region.start..region.start + width].fill(b' ');
        }
        self.scroll_runs(up, a, m);
        self.wipe();
    }

    fn scroll_runs(&mut self, up: bool, a: usize, m: usize) {
        let runs = self.runs();
        if up {
            runs.copy_within(a + 1..a + m, a);
        } else {
            runs.copy_within(a..a + m - 1, a + 1);
            runs[a] = 0;
        }
        // of a region of one line that is the line above it too
        runs[(a + m).saturating_sub(2)..a + m].fill(0);
        runs[a.saturating_sub(1)..a].fill(0);
    }

    fn set_mode(&mut self, p: &[u8]) {
        let s = &mut *self.settings;
        s.mode = p[0];
        (s.lines1, s.lines2, s.columns1, s.columns2) = match *p {
            [0, first, second] => (first, second, 80, 80),
            [1, lines] => (lines, lines, 39, 39),
            [2, lines, m, _] => (lines, lines, m, 79 - m),
            _ => (8, 0, 80, 0),
        };
        match *p {
            [2, _, _, boundary] => s.boundary = boundary,
            [3] => (s.kind, s.display) = (3, 1),
            _ => {}
        }
        s.places = [Place { line: 1, column: 1, top: 1, waiting: 0 }; 2];
        (s.selected, s.step, s.tracking) = (0, 1, 1);
        s.marks = [0; 96];
        self.stores.cells.fill(b' ');
        self.stores.dots.fill(0);
        self.wipe();
        self.load();
    }
}
