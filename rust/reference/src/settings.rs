//! The plain types, the sizes of the stores, and the screens' measures.

pub const CELLS: usize = 3840;
/// The layer: 640 marks, then 640 codes.
pub const MARKS: usize = 640;
pub const LAYER: usize = 1280;
pub const SHOWN: usize = 640;
/// of mode 3, a bit a dot
pub const DOTS: usize = 3840;
pub const ROWS: usize = 8;
pub const WIDTH: usize = 80;
/// of a message, and of a piece
pub const LONGEST_MESSAGE: usize = 4096;
/// "the unfinished bytes, at most 12"
pub const LONGEST_WAIT: usize = 12;
/// "the stream's byte count, up to 1,000,000,000"
pub const LONGEST_STREAM: usize = 1_000_000_000;
/// "ten key texts of 8 codes"
pub const KEYS: usize = 10;
pub const KEY_TEXT: usize = 8;
/// of a screen, in every mode
pub const MOST_LINES: usize = 48;
/// 8 rows of 80, each followed by 13 and 10.
pub const COPY: usize = 656;
pub const BLANK: u8 = 32;

/// Sequence 67: one of these letters.
pub const CHARSETS: &[u8] = b"UFGEDWISN";
/// Sequence 247: one of these numbers.
pub const SHIFTS: &[u8] = &[0, 2, 4, 6, 16, 18, 32, 34, 64, 66];

/// What each of the two screens has of its own.
#[derive(Clone, Copy, Debug, PartialEq, Eq)]
pub struct Place {
    pub line: u8,
    pub column: u8,
    pub top: u8,
    /// 1 while the cursor waits in the last column (rule 2)
    pub waiting: u8,
}

#[derive(Clone, Copy, Debug, PartialEq, Eq)]
pub struct Keys {
    /// INS, CAPS, NUM
    pub leds: [u8; 3],
    pub charset: u8,
    pub strings: u8,
    pub repeat: u8,
    /// sequence 241
    pub delay: u8,
    /// sequence 242
    pub interval: u8,
    pub shift: u8,
    /// 243, 244 and 245: four codes each
    pub arrows: [u8; 12],
}

#[derive(Clone, Copy, Debug, PartialEq, Eq)]
pub struct Settings {
    pub mode: u8,
    pub lines1: u8,
    pub lines2: u8,
    pub columns1: u8,
    pub columns2: u8,
    pub boundary: u8,
    /// 0 is screen 1, 1 is screen 2
    pub selected: u8,
    pub places: [Place; 2],
    /// 1 is on
    pub tracking: u8,
    pub step: u8,
    pub secret: u8,
    pub cursor: u8,
    pub display: u8,
    /// the cursor's type
    pub kind: u8,
    pub keys: Keys,
    /// 31 patterns of 8 rows
    pub patterns: [u8; 248],
    /// the stream's unfinished bytes, `held` of them, and zeros behind
    pub held: u8,
    pub waiting: [u8; LONGEST_WAIT],
    /// the stream's bytes so far, those that wait among them
    pub count: u32,
    /// the key texts, one behind the other
    pub texts: [u8; KEYS * KEY_TEXT],
    /// "mark each line that runs on": 1, by `mark_of`
    pub marks: [u8; 2 * MOST_LINES],
    /// 1 or 2: when printing in the last column goes to the next line
    pub rule: u8,
}

#[derive(Clone, Copy, Debug, Default, PartialEq, Eq)]
pub struct Answer {
    pub number: u8,
    pub taken: u32,
    pub accepted: u32,
    pub refused: u32,
    /// number of the first refusal, 0 if none
    pub first: u8,
    /// offset of the first refusal, 0 if none
    pub offset: u32,
    /// first bad parameter of the first refusal, 0 unless its number is 11
    pub parameter: u8,
    pub printed: usize,
}

/// A place where two screens differ (document 02, P4): "row, column, first
/// code, second code". Rows and columns count from 1, as document 01's do.
#[derive(Clone, Copy, Debug, PartialEq, Eq)]
pub struct Record {
    pub row: u8,
    pub column: u8,
    pub first: u8,
    pub second: u8,
}

pub const HOME: Place = Place { line: 1, column: 1, top: 1, waiting: 0 };

/// "Opening settings (house rule)", with rule 1.
pub const OPENING: Settings = Settings {
    mode: 0,
    lines1: 24,
    lines2: 24,
    columns1: 80,
    columns2: 80,
    boundary: 32,
    selected: 0,
    places: [HOME, HOME],
    tracking: 1,
    step: 1,
    secret: 0,
    cursor: 1,
    display: 1,
    kind: 0,
    keys: Keys {
        leds: [0, 0, 0],
        charset: b'U',
        strings: 1,
        repeat: 1,
        delay: 32,
        interval: 16,
        shift: 0,
        arrows: [0; 12],
    },
    patterns: [0; 248],
    waiting: [0; LONGEST_WAIT],
    held: 0,
    count: 0,
    texts: [BLANK; KEYS * KEY_TEXT],
    marks: [0; 2 * MOST_LINES],
    rule: 1,
};

/// Where the mark of a screen's line stands.
pub fn mark_of(screen: usize, line: usize) -> usize {
    MOST_LINES * screen + line - 1
}

/// Screens are numbered 0 and 1 here, as `selected` is.
impl Settings {
    pub fn lines(&self, screen: usize) -> usize {
        usize::from([self.lines1, self.lines2][screen])
    }

    pub fn columns(&self, screen: usize) -> usize {
        usize::from([self.columns1, self.columns2][screen])
    }

    /// The rows that show the screens: "With ESC 211,0 row 8 shows ten key
    /// texts".
    pub fn screen_rows(&self) -> usize {
        if self.display == 0 {
            ROWS - 1
        } else {
            ROWS
        }
    }

    /// H, the window's height: 8, or 16 in mode 1; with the key line "H
    /// becomes 7, or 14 in mode 1".
    pub fn height(&self) -> usize {
        if self.mode == 1 {
            2 * self.screen_rows()
        } else {
            self.screen_rows()
        }
    }

    /// "one text screen" in mode 3, else two.
    pub fn screens(&self) -> usize {
        if self.mode == 3 {
            1
        } else {
            2
        }
    }

    /// "A top runs from 1 to lines−H+1."
    pub fn greatest_top(&self, screen: usize) -> usize {
        self.lines(screen) - self.height() + 1
    }

    /// "Screen 1 begins at cell 0, line after line; screen 2 follows at once."
    pub fn cell(&self, screen: usize, line: usize, column: usize) -> usize {
        let start = if screen == 0 { 0 } else { self.lines(0) * self.columns(0) };
        start + (line - 1) * self.columns(screen) + column - 1
    }
}
