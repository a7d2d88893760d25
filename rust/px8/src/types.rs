//! The plain types, laid out as the archive has them, the sizes of the
//! stores, and the numbers.

use core::fmt;

/// Rows of the shown screen.
pub const ROWS: usize = 8;
/// Places in a row of the shown screen.
pub const WIDTH: usize = 80;
/// Bytes of the cells.
pub const CELLS: usize = 3840;
/// Bytes of the layer: 640 marks, then 640 codes.
pub const LAYER: usize = 1280;
/// Bytes of the shown screen.
pub const SHOWN: usize = ROWS * WIDTH;
/// Bytes of the dots of mode 3.
pub const DOTS: usize = DOT_ROWS * DOT_ROW;
/// Bytes of a row of dots.
pub const DOT_ROW: usize = DOT_COLUMNS / 8;
/// Rows of dots.
pub const DOT_ROWS: usize = 64;
/// Dots in a row.
pub const DOT_COLUMNS: usize = 480;
/// The longest message that is taken, and the longest piece of a stream.
pub const MESSAGE_MOST: usize = 4096;
/// The longest pack that is taken.
pub const PACK_MOST: usize = 60_000;
/// Bytes of a printed copy: 8 rows of 80, each followed by 13 and 10. In mode 3 it
/// has [`DOTS`]; see [`Settings::copy_size`].
pub const COPY: usize = ROWS * (WIDTH + 2);
/// Bytes of the patterns: 31 codes of 8 rows.
pub const PATTERNS: usize = 248;
/// Keys with a text in the key line.
pub const KEYS: usize = 10;
/// Codes of a key's text.
pub const KEY_TEXT: usize = 8;
/// Bytes of the key texts.
pub const TEXTS: usize = KEYS * KEY_TEXT;
/// Lines of a screen at most.
pub const LINES_MOST: usize = 48;
/// Bytes of a stream that wait at most.
pub const WAITING_MOST: usize = 12;
/// The most that a stream's byte count reaches.
pub const COUNT_MOST: u32 = 1_000_000_000;

/// The call was served.
pub const SERVED: u8 = 0;
/// A store is not of its size; the whole call is refused.
pub const STORE_SIZE: u8 = 1;
/// The message, the piece or a message of the pack is longer than
/// [`MESSAGE_MOST`]; the whole call is refused.
pub const TOO_LONG: u8 = 2;
/// A setting is outside its range; the whole call is refused.
pub const UNSOUND: u8 = 3;
/// The piece would take the stream's count past [`COUNT_MOST`]; the whole call
/// is refused.
pub const STREAM_TOO_LONG: u8 = 15;
/// A message or pack while bytes of a stream wait; the whole call is refused.
pub const BYTES_WAIT: u8 = 16;
/// The key is not 1 to [`KEYS`], or its text not of [`KEY_TEXT`] bytes; the
/// whole call is refused.
pub const BAD_KEY_TEXT: u8 = 17;
/// An opening by another rule than 1 or 2; the whole call is refused.
pub const BAD_RULE: u8 = 23;
/// More places differ than the list has records; the whole call is refused.
pub const LIST_SHORT: u8 = 18;
/// The outgoing buffer has no space for the sequence behind its place; nothing is
/// written.
pub const NO_SPACE: u8 = 22;
/// First refusal: the byte after ESC is not in the list.
pub const NOT_LISTED: u8 = 10;
/// First refusal: a parameter is outside its range, or its sum with the one
/// before is too large.
pub const OUT_OF_RANGE: u8 = 11;
/// First refusal: the message ends inside a sequence, or the stream is closed
/// inside one.
pub const CUT: u8 = 12;
/// First refusal: ESC 80 with less than [`COPY`] of printer room left, in mode 3
/// with less than [`DOTS`].
pub const NO_ROOM: u8 = 13;

/// The pack is longer than [`PACK_MOST`]; the call is refused.
pub const PACK_TOO_LONG: u8 = 19;
/// The trace is longer than 60,000 bytes; the call is refused.
pub const TRACE_TOO_LONG: u8 = 19;
/// A record of the pack or trace is cut; the call is refused.
pub const CUT_RECORD: u8 = 20;
/// A record of the pack is of another kind, or one of the trace of another kind or
/// length; the call is refused.
pub const UNKNOWN_RECORD: u8 = 21;
/// A tick of the trace falls; the call is refused.
pub const TICK_FALLS: u8 = 24;
/// The codes need more than the output has; the call is refused.
pub const OUTPUT_TOO_SMALL: u8 = 25;

/// What each of the two screens has of its own.
#[repr(C)]
#[derive(Clone, Copy, Debug, PartialEq, Eq)]
pub struct Place {
    /// Cursor line, 1 to the screen's lines.
    pub line: u8,
    /// Cursor column, 1 to the screen's columns.
    pub column: u8,
    /// The window's first line, 1 to lines − H + 1.
    pub top: u8,
    /// 1 while the cursor is late: in the last column, where the next printed
    /// character first goes to the next line; only by rule 2. Else 0.
    pub late: u8,
}

/// The keyboard's settings: stored for the board. Of what the library does
/// number 3 depends on them, by their ranges, and
/// [`key_repeats`](crate::key_repeats).
#[repr(C)]
#[derive(Clone, Copy, Debug, PartialEq, Eq)]
pub struct Keys {
    /// INS, CAPS, NUM; 1 is on (160 to 165).
    pub leds: [u8; 3],
    /// One of the letters U F G E D W I S N (67).
    pub charset: u8,
    /// 1 where function keys send strings, 0 codes (177, 176).
    pub strings: u8,
    /// Key repeat, 1 is on (240).
    pub repeat: u8,
    /// Its start time, 1 to 127, in 1/64 second (241).
    pub delay: u8,
    /// Its interval, 1 to 127, in 1/256 second (242).
    pub interval: u8,
    /// 0, 2, 4, 6, 16, 18, 32, 34, 64 or 66 (247).
    pub shift: u8,
    /// Four codes each of 243, 244 and 245.
    pub arrows: [u8; 12],
}

/// The settings. H is the window's height: 16 in mode 1, else 8; with the key
/// line 14 in mode 1, else 7. They are sound when every field lies in the
/// range given here. `held`, `waiting` and `count` are the stream's: no sequence
/// changes them, and a message leaves them. Only a key text changes `texts`.
#[repr(C)]
#[derive(Clone, Copy, Debug, PartialEq, Eq)]
pub struct Settings {
    /// Of screen 1 and of screen 2: bit l − 1 is set where line l runs on into
    /// the next, so that 84 erases both. From a screen's last line on no bit is
    /// set. See [`Settings::marked_lines`].
    pub marks: [u64; 2],
    /// 0 to 3 (208).
    pub mode: u8,
    /// Lines of screen 1. Mode 0: each screen at least 8, together at most
    /// 48. Mode 1: equal, 16 to 48. Mode 2: equal, 8 to 48. Mode 3: 8 and 0.
    pub lines1: u8,
    /// Lines of screen 2.
    pub lines2: u8,
    /// Columns of screen 1. Mode 0: 80 and 80. Mode 1: 39 and 39. Mode 2: m
    /// and 79 − m, with m 1 to 78. Mode 3: 80 and 0.
    pub columns1: u8,
    /// Columns of screen 2.
    pub columns2: u8,
    /// Any byte: mode 2 shows it in column m + 1.
    pub boundary: u8,
    /// 0 is screen 1, 1 is screen 2 (209). Mode 3 has screen 1 alone.
    pub selected: u8,
    /// Of screen 1 and of screen 2; in mode 3 the second is 1, 1, 1, not late.
    pub places: [Place; 2],
    /// 1 where the window follows the cursor (149, sent the other way round).
    pub tracking: u8,
    /// Lines that 150 and 151 move by, 1 to H (148).
    pub step: u8,
    /// 1 where every place is shown blank (123, 125).
    pub secret: u8,
    /// 1 is on (51, 50).
    pub cursor: u8,
    /// Key display as sent (211): 0 row 8 is the key line, 1 it shows the
    /// screens as the other rows do. 1 in mode 3.
    pub display: u8,
    /// The cursor's type, 0 to 3 (214); 3 in mode 3.
    pub kind: u8,
    /// The keyboard's.
    pub keys: Keys,
    /// 1 or 2, as the opening was given it: by rule 1 printing in the last
    /// column goes to the next line at once, by rule 2 the next printed
    /// character does. No sequence changes it.
    pub rule: u8,
    /// 31 patterns of 8 rows, for the codes 224 to 254 (224).
    pub patterns: [u8; PATTERNS],
    /// How many bytes wait, 0 to 12, and at most `count`.
    pub held: u8,
    /// The stream's bytes that wait: the first `held` are an unfinished
    /// sequence, led by 27 and shorter than its whole length; the others are
    /// 0. See [`Settings::waiting`].
    pub waiting: [u8; WAITING_MOST],
    /// The stream's byte count, 0 to [`COUNT_MOST`].
    pub count: u32,
    /// Ten key texts of eight codes, which may be any bytes: that of key k
    /// stands in columns 8k − 7 to 8k of the key line. See
    /// [`Settings::key_texts`].
    pub texts: [u8; TEXTS],
}

impl Settings {
    /// The printer room that a copy takes now.
    ///
    /// ```
    /// let mut terminal = px8::Terminal::open();
    /// assert_eq!(terminal.settings().copy_size(), px8::COPY);
    /// terminal.message(&[27, 208, 3]);
    /// assert_eq!(terminal.settings().copy_size(), px8::DOTS);
    /// ```
    pub fn copy_size(&self) -> usize {
        if self.mode == 3 { DOTS } else { COPY }
    }

    /// The bytes that wait for the rest of their sequence; of settings that
    /// are not sound, no more than there is room for.
    ///
    /// ```
    /// let mut terminal = px8::Terminal::open();
    /// terminal.piece(&[b'3', b'8', 27, 61]);
    /// assert_eq!(terminal.settings().waiting(), [27, 61]);
    /// assert_eq!(terminal.settings().count, 4);
    /// ```
    pub fn waiting(&self) -> &[u8] {
        &self.waiting[..usize::from(self.held).min(WAITING_MOST)]
    }

    /// The text of each key, from key 1 on.
    ///
    /// ```
    /// let mut terminal = px8::Terminal::open();
    /// terminal.key_text(2, b"PRINT   ");
    /// let texts: Vec<_> = terminal.settings().key_texts().collect();
    /// assert_eq!((texts.len(), texts[0], texts[1]), (10, b"        ", b"PRINT   "));
    /// ```
    pub fn key_texts(&self) -> impl ExactSizeIterator<Item = &[u8; KEY_TEXT]> {
        self.texts.as_chunks().0.iter()
    }

    /// The lines that run on into the next, of screen 1 (0) or 2 (1).
    ///
    /// ```
    /// let mut terminal = px8::Terminal::open();
    /// terminal.message(&[b'x'; 200]);
    /// assert_eq!(terminal.settings().marked_lines(0).collect::<Vec<_>>(), [1, 2]);
    /// assert_eq!(terminal.settings().marked_lines(1).count(), 0);
    /// // from line 2 on the name is erased, and its mark
    /// terminal.message(&[27, 61, 33, 32, 27, 84]);
    /// assert_eq!(terminal.settings().marked_lines(0).collect::<Vec<_>>(), [1]);
    /// ```
    pub fn marked_lines(&self, screen: usize) -> impl Iterator<Item = usize> + '_ {
        let marks = self.marks.get(screen).copied().unwrap_or(0);
        (1..=LINES_MOST).filter(move |line| marks >> (line - 1) & 1 == 1)
    }
}

/// The answer to a message, short or not, a piece, a closing, a pack or a key text.
#[repr(C)]
#[derive(Clone, Copy, Debug, Default, PartialEq, Eq)]
#[must_use]
pub struct Answer {
    /// [`SERVED`], or why the whole call was refused: 1, 2, 3 or 16 a message;
    /// 1, 2, 3 or 15 a piece; 1 or 3 a closing; 1, 19, 20, 21, 2, 3 or 16 a pack;
    /// 3 or 17 a key text. Sequences may be refused in a call that was served: see
    /// [`Answer::is_clean`].
    pub number: u8,
    /// Bytes taken: all of the message or piece, if served, of a pack the bodies; a
    /// closing and a key text take none.
    pub taken: u32,
    /// Sequences accepted.
    pub accepted: u32,
    /// Sequences refused.
    pub refused: u32,
    /// Number of the first refusal, 10 to 13; 0 if there is none.
    pub first: u8,
    /// The first bad parameter of the first refusal, if that is
    /// [`OUT_OF_RANGE`]: the byte after the sequence's second one is 1, and
    /// where only the sum of two is too large it is the later. Else 0.
    pub parameter: u8,
    /// Where its ESC stands, from 0: in the message, also of a pack, or for a piece
    /// and a closing in the stream. 0 if there is none.
    pub offset: u32,
    /// Bytes of printed copies, [`COPY`] each, in mode 3 [`DOTS`].
    pub printed: u64,
}

/// What [`key_repeats`](crate::key_repeats) gives back.
#[repr(C)]
#[derive(Clone, Copy, Debug, PartialEq, Eq)]
#[must_use]
pub struct Repeats {
    /// [`SERVED`], or why the call was refused: 3, 19, 20, 21, 24 or 25.
    pub number: u8,
    /// How many codes were sent and written; 0 if refused.
    pub count: u64,
}

impl Answer {
    /// Served, and no sequence of it refused.
    pub fn is_clean(&self) -> bool {
        self.number == SERVED && self.refused == 0
    }

    /// The first refusal, if a sequence was refused.
    ///
    /// ```
    /// let mut terminal = px8::Terminal::open();
    /// // a cursor placing to line 24, column 81
    /// let answer = terminal.message(&[65, 27, 61, 55, 112]).answer;
    /// let refusal = answer.refusal().expect("column 81 is refused");
    /// assert_eq!((refusal.number, refusal.parameter, refusal.offset), (px8::OUT_OF_RANGE, 2, 1));
    /// let words = "parameter 2 is outside its range, or its sum with the one before is too large";
    /// assert_eq!(refusal.to_string(), format!("refusal 11 at offset 1: {words}"));
    /// assert_eq!(terminal.message(b"38,500").answer.refusal(), None);
    /// ```
    pub fn refusal(&self) -> Option<Refusal> {
        let Answer { first: number, parameter, offset, .. } = *self;
        (number != 0).then_some(Refusal { number, parameter, offset })
    }
}

/// Why a sequence was refused. It prints itself in words, and is
/// an error that `?` can hand on.
#[derive(Clone, Copy, Debug, PartialEq, Eq)]
pub struct Refusal {
    /// [`NOT_LISTED`], [`OUT_OF_RANGE`], [`CUT`] or [`NO_ROOM`].
    pub number: u8,
    /// The first bad parameter, from 1, of [`OUT_OF_RANGE`]; else 0.
    pub parameter: u8,
    /// Where the sequence's ESC stands, from 0: in the message, or for a piece
    /// and a closing in the stream.
    pub offset: u32,
}

impl fmt::Display for Refusal {
    fn fmt(&self, f: &mut fmt::Formatter) -> fmt::Result {
        write!(f, "refusal {} at offset {}: ", self.number, self.offset)?;
        match self.number {
            NOT_LISTED => write!(f, "the byte after ESC is not in the list"),
            OUT_OF_RANGE => in_range_words(f, self.parameter),
            CUT => write!(f, "the message or stream ends inside the sequence"),
            NO_ROOM => {
                write!(f, "a copy needs {COPY} bytes of printer room, in mode 3 {DOTS}, and fewer are left")
            }
            // no answer has another number
            _ => write!(f, "of an unknown number"),
        }
    }
}

impl core::error::Error for Refusal {}

/// What 11 says of a parameter.
pub(crate) fn in_range_words(f: &mut fmt::Formatter, parameter: u8) -> fmt::Result {
    write!(f, "parameter {parameter} is outside its range")?;
    match parameter {
        1 => Ok(()),
        _ => write!(f, ", or its sum with the one before is too large"),
    }
}

impl fmt::Display for Answer {
    /// The answer's line, as program `show` prints it.
    fn fmt(&self, f: &mut fmt::Formatter) -> fmt::Result {
        write!(f, "answer {} taken {} accepted {} ", self.number, self.taken, self.accepted)?;
        write!(f, "refused {} first {} at {}", self.refused, self.first, self.offset)
    }
}

/// A place where two shown screens differ.
#[repr(C)]
#[derive(Clone, Copy, Debug, Default, PartialEq, Eq)]
pub struct Difference {
    /// 1 to 8.
    pub row: u8,
    /// 1 to 80.
    pub column: u8,
    /// The first screen's code there.
    pub first: u8,
    /// The second screen's.
    pub second: u8,
}
