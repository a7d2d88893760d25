//! The input of each line, as the top of `main.rs` says.

const ESC: u8 = 27;
const LETTERS: &[u8] = b"ABCDEFGHIJKLMNOPQRSTUVWXYZ0123456789    ,.";
const LINES: usize = 24;
/// Bytes of text on each screen at the start.
const FILLING: usize = 1800;

#[derive(Clone, Copy, PartialEq)]
pub enum Kind {
    Paint,
    Text,
    Mixed,
    Lifts,
    Pieces,
    Line,
    Short,
    Weight,
    /// letters in their line
    Letters,
    /// a carriage return and digits
    Return,
    /// a cursor placing and digits
    Placing,
    /// letters over a line's end
    End,
    /// digits with codes 8 and 10 between
    Codes,
}

/// One line of the benchmark.
pub struct Case {
    pub kind: Kind,
    pub size: usize,
    pub mode: u8,
}

impl Case {
    pub fn name(&self) -> String {
        let (size, mode) = (self.size, self.mode);
        match self.kind {
            Kind::Paint => format!("paint-mode-{mode}"),
            Kind::Text => format!("text-{size}-mode-{mode}"),
            Kind::Mixed => format!("mixed-{size}-mode-{mode}"),
            Kind::Lifts => format!("lifts-{size}-mode-{mode}"),
            Kind::Pieces => format!("pieces-{size}-mode-{mode}"),
            Kind::Line => format!("line-{size}-mode-{mode}"),
            Kind::Short => format!("short-{size}-mode-{mode}"),
            Kind::Weight => format!("short-weight-{size}-mode-{mode}"),
            Kind::Letters => format!("scale-letters-{size}-mode-{mode}"),
            Kind::Return => format!("scale-return-{size}-mode-{mode}"),
            Kind::Placing => format!("scale-placing-{size}-mode-{mode}"),
            Kind::End => format!("scale-end-{size}-mode-{mode}"),
            Kind::Codes => format!("scale-codes-{size}-mode-{mode}"),
        }
    }

    /// Brings an opened terminal to the start: the mode, text on both
    /// screens, screen 1 selected, its cursor.
    pub fn start(&self) -> Vec<Vec<u8>> {
        let mode: &[u8] = match self.mode {
            0 => &[ESC, 208, 0, 24, 24],
            1 => &[ESC, 208, 1, 24],
            2 => &[ESC, 208, 2, 24, 39, 124],
            _ => &[ESC, 208, 3],
        };
        let mut random = Random(1);
        let mut messages = vec![mode.to_vec()];
        for screen in 0..2 {
            messages.push(vec![ESC, 209, screen]);
            messages.push(random.text(FILLING));
        }
        messages.push(vec![ESC, 209, 0]);
        let (line, column) = self.cursor();
        messages.push(vec![ESC, 61, 31 + line as u8, 31 + column as u8]);
        messages
    }

    /// The bytes that bring a terminal of the VT100's kind, 24 by 80, to what
    /// stands on screen 1 then; none if its bytes for the messages are others.
    pub fn start_of_vt100(&self) -> Option<Vec<u8>> {
        if self.mode != 0 || self.kind == Kind::Mixed {
            return None;
        }
        let mut bytes = Random(1).text(FILLING);
        let (line, column) = self.cursor();
        bytes.extend(format!("\x1b[{line};{column}H").bytes());
        Some(bytes)
    }

    /// The cursor's line and column at the start: for lifts on the last line.
    pub fn cursor(&self) -> (usize, usize) {
        match self.kind {
            Kind::Lifts => (LINES, 1),
            Kind::Letters | Kind::Return | Kind::Placing | Kind::Codes => (3, 5),
            Kind::End => (3, if matches!(self.mode, 1 | 2) { 37 } else { 78 }),
            _ => (1, 1),
        }
    }

    pub fn messages(&self) -> Vec<Vec<u8>> {
        let count = if self.size > 1000 { 16 } else { 64 };
        let mut random = Random(2 + self.size as u64);
        let mut message = |size: usize| match self.kind {
            Kind::Paint => Vec::new(),
            Kind::Text | Kind::Short | Kind::Letters | Kind::End => random.text(size),
            Kind::Weight | Kind::Return => [vec![13], random.digits(size)].concat(),
            Kind::Placing => [random.placing(8), random.digits(size)].concat(),
            Kind::Codes => {
                let digits = random.digits(size);
                [&digits[..3], &[8], &digits[3..4], &[10], &digits[4..]].concat()
            }
            Kind::Mixed => random.mixed(size),
            Kind::Lifts => vec![10; size],
            Kind::Pieces => random.pieces(size),
            Kind::Line => random.line(size),
        };
        (0..count).map(|_| message(self.size)).collect()
    }
}

/// A seeded source of numbers (splitmix64), and what is drawn from it.
struct Random(u64);

impl Random {
    fn number(&mut self) -> u64 {
        self.0 = self.0.wrapping_add(0x9e37_79b9_7f4a_7c15);
        let mut mixed = self.0;
        mixed = (mixed ^ mixed >> 30).wrapping_mul(0xbf58_476d_1ce4_e5b9);
        mixed = (mixed ^ mixed >> 27).wrapping_mul(0x94d0_49bb_1331_11eb);
        mixed ^ mixed >> 31
    }

    /// 0 to `count` − 1.
    fn below(&mut self, count: usize) -> usize {
        (self.number() % count as u64) as usize
    }

    fn text(&mut self, size: usize) -> Vec<u8> {
        (0..size).map(|_| LETTERS[self.below(LETTERS.len())]).collect()
    }

    fn digits(&mut self, size: usize) -> Vec<u8> {
        (0..size).map(|_| b'0' + self.below(10) as u8).collect()
    }

    /// To one of the first lines, columns 1 to 30.
    fn placing(&mut self, lines: usize) -> Vec<u8> {
        vec![ESC, 61, 32 + self.below(lines) as u8, 32 + self.below(30) as u8]
    }

    /// An item of a weighing program, by its share in a hundred.
    fn item(&mut self) -> Vec<u8> {
        match self.below(100) {
            0..=39 => [self.placing(LINES), self.digits(6)].concat(),
            40..=54 => self.digits(6),
            55..=69 => [self.placing(LINES), vec![ESC, 84]].concat(),
            70..=79 => vec![ESC, [150, 151, 212, 213, 215][self.below(5)]],
            80..=87 => vec![ESC, 209, self.below(2) as u8],
            88..=92 => [vec![ESC, 123], self.digits(6), vec![ESC, 125]].concat(),
            _ => vec![ESC, 210, 1 + self.below(8) as u8, 1 + self.below(80) as u8, b'*'],
        }
    }

    /// A line of so many dots, to the right or to the left and mostly sloping, by
    /// any function; every dot acts.
    fn line(&mut self, dots: usize) -> Vec<u8> {
        let long = dots - 1;
        let (left, top) = (self.below(480 - long), self.below(64));
        let bottom = (top + self.below(long.min(63) + 1)).min(63);
        let place = |horizontal: usize, vertical: usize| {
            [(horizontal / 256) as u8, horizontal as u8, 0, vertical as u8]
        };
        let ends = match self.below(2) {
            0 => [place(left, top), place(left + long, bottom)],
            _ => [place(left + long, top), place(left, bottom)],
        };
        [&[ESC, 198][..], &ends.concat(), &[255, 255, 1 + self.below(3) as u8]].concat()
    }

    /// Short runs, each behind a carriage return, which also fills up.
    fn pieces(&mut self, size: usize) -> Vec<u8> {
        let mut message = Vec::new();
        while message.len() + 8 <= size {
            let count = 1 + self.below(7);
            message.push(13);
            message.extend(self.digits(count));
        }
        message.resize(size, 13);
        message
    }

    fn mixed(&mut self, size: usize) -> Vec<u8> {
        let mut message = Vec::new();
        loop {
            let item = self.item();
            if message.len() + item.len() > size {
                break;
            }
            message.extend(item);
        }
        let left = size - message.len();
        message.extend(self.digits(left));
        message
    }
}
