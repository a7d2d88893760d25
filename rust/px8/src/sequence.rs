//! The sequences by name (document 02, P7), their parameters as sent.

use alloc::vec::Vec;
use core::fmt;

/// The most parameters of a sequence: 198's.
pub(crate) const PARAMETERS_MOST: usize = 11;

/// A sequence and its parameters, each the byte that is sent; numbers of two bytes are
/// sent high byte first. In brackets stands the second byte. The ranges are those in
/// which a reader in modes 0 to 2 takes it, R being the lines of the selected screen; a
/// sequence outside them is refused when it is written, by [`OUT_OF_RANGE`](crate::OUT_OF_RANGE).
///
/// It prints itself in words:
///
/// ```
/// use px8::Sequence;
/// assert_eq!(Sequence::cursor_to(12, 1).to_string(), "cursor to line 12, column 1");
/// assert_eq!(Sequence::Select { screen: 1 }.to_string(), "select screen 2");
/// let mode = Sequence::Mode2 { lines: 10, columns: 20, boundary: b'#' };
/// assert_eq!(mode.to_string(), "mode 2, 10 lines, 20 and 59 columns, boundary 35");
/// assert_eq!((mode.second(), mode.parameters()), (208, vec![2, 10, 20, 35]));
/// assert_eq!(Sequence::of(208, &[2, 10, 20, 35]), Some(mode));
/// ```
#[derive(Clone, Copy, Debug, PartialEq, Eq, Hash)]
pub enum Sequence {
    /// Prints a code, 0 to 255 (37).
    Print {
        /// Any code.
        code: u8,
    },
    /// Blanks the screen, cursor home, top 1; in mode 3 no dot either (42).
    Clear,
    /// Cursor off (50).
    CursorOff,
    /// Cursor on (51).
    CursorOn,
    /// The cursor's line and column, each sent with 31 added: 32 to R + 31, 32 to columns
    /// + 31; see [`Sequence::cursor_to`] (61).
    PlaceCursor {
        /// The line with 31 added.
        line: u8,
        /// The column with 31 added.
        column: u8,
    },
    /// One of the letters U F G E D W I S N (67).
    CharacterSet {
        /// The letter.
        letter: u8,
    },
    /// A printed copy (80).
    Copy,
    /// Blanks to the end of the logical line (84).
    EraseLine,
    /// Blanks to the end of the screen (89).
    EraseScreen,
    /// Secret on (123).
    SecretOn,
    /// Secret off (125).
    SecretOff,
    /// The `lines` lines, 1 to R, that follow the first `above`, 0 to R − 1, move up by one;
    /// together at most R (144).
    ScrollUp {
        /// Lines above the region.
        above: u8,
        /// How many lines.
        lines: u8,
    },
    /// The same down by one (145).
    ScrollDown {
        /// Lines above the region.
        above: u8,
        /// How many lines.
        lines: u8,
    },
    /// How far the window moves, 1 to H (148).
    Step {
        /// How many lines.
        lines: u8,
    },
    /// 0 the window follows the cursor, 1 not (149).
    Tracking {
        /// 0 on, 1 off.
        off: u8,
    },
    /// The window up by the step (150).
    WindowUp,
    /// The window down by the step (151).
    WindowDown,
    /// INS on (160).
    InsOn,
    /// INS off (161).
    InsOff,
    /// CAPS on (162).
    CapsOn,
    /// CAPS off (163).
    CapsOff,
    /// NUM on (164).
    NumOn,
    /// NUM off (165).
    NumOff,
    /// Function keys send codes (176).
    KeyCodes,
    /// Function keys send strings (177).
    KeyStrings,
    /// In mode 3 a line of dots: horizontal 0 to 479, vertical 0 to 63; the mask's highest
    /// bit is the first dot's; function 1 clears, 2 sets, 3 inverts. In modes 0 to 2
    /// nothing is judged, and nothing drawn (198).
    DrawLine {
        /// The first dot.
        from: Dot,
        /// The last dot.
        to: Dot,
        /// Which dots act, the highest bit first.
        mask: u16,
        /// What is done to a dot.
        function: u8,
    },
    /// In mode 3 sets (1) or clears (0) a dot; else as [`Sequence::DrawLine`] (199).
    SetDot {
        /// What is done to a dot.
        function: u8,
        /// The row of dots.
        vertical: u8,
        /// The dot in its row.
        horizontal: u16,
    },
    /// Each screen at least 8 lines, together at most 48 (208, 0).
    Mode0 {
        /// Lines of screen 1.
        lines1: u8,
        /// Lines of screen 2.
        lines2: u8,
    },
    /// 16 to 48 lines (208, 1).
    Mode1 {
        /// How many lines.
        lines: u8,
    },
    /// 8 to 48 lines, screen 1 of 1 to 78 columns, any boundary (208, 2).
    Mode2 {
        /// How many lines.
        lines: u8,
        /// Columns of screen 1.
        columns: u8,
        /// Shown between the screens.
        boundary: u8,
    },
    /// Mode 3 (208, 3).
    Mode3,
    /// 0 screen 1, 1 screen 2 (209).
    Select {
        /// 0 or 1.
        screen: u8,
    },
    /// Marks row 1 to 8, column 1 to 80, with any code (210).
    Cover {
        /// The row.
        row: u8,
        /// The column.
        column: u8,
        /// Any code.
        code: u8,
    },
    /// 0 row 8 is the key line, 1 not (211).
    KeyDisplay {
        /// 0 on, 1 off.
        display: u8,
    },
    /// The window to the top (212).
    WindowTop,
    /// The window to the end (213).
    WindowEnd,
    /// 0 to 3 (214).
    CursorType {
        /// The type.
        kind: u8,
    },
    /// The window to the cursor (215).
    WindowToCursor,
    /// The eight rows of a code, 224 to 254 (224).
    Pattern {
        /// 224 to 254.
        code: u8,
        /// The rows, from the top.
        rows: [u8; 8],
    },
    /// 0 or 1 (240).
    KeyRepeat {
        /// 1 on, 0 off.
        on: u8,
    },
    /// 1 to 127, in 1/64 second (241).
    RepeatDelay {
        /// The time.
        time: u8,
    },
    /// 1 to 127, in 1/256 second (242).
    RepeatInterval {
        /// The time.
        time: u8,
    },
    /// The codes of the arrow keys (243).
    Arrows {
        /// The codes as sent.
        codes: [u8; 4],
    },
    /// The same with SHIFT (244).
    ShiftArrows {
        /// The codes as sent.
        codes: [u8; 4],
    },
    /// The same with CTRL (245).
    CtrlArrows {
        /// The codes as sent.
        codes: [u8; 4],
    },
    /// No effect (246).
    ClearKeys,
    /// 0, 2, 4, 6, 16, 18, 32, 34, 64 or 66 (247).
    ShiftState {
        /// The state.
        state: u8,
    },
}

/// A dot of mode 3, as [`Sequence::DrawLine`] sends it.
#[derive(Clone, Copy, Debug, PartialEq, Eq, Hash)]
pub struct Dot {
    /// 0 to 479.
    pub horizontal: u16,
    /// 0 to 63.
    pub vertical: u16,
}

use Sequence as S;

impl Sequence {
    /// The cursor placed in a line and column, counted from 1. One that no screen has
    /// makes a sequence that is refused.
    ///
    /// ```
    /// use px8::Sequence;
    /// assert_eq!(Sequence::cursor_to(12, 1), Sequence::PlaceCursor { line: 43, column: 32 });
    /// ```
    pub const fn cursor_to(line: u8, column: u8) -> Sequence {
        S::PlaceCursor { line: line.saturating_add(31), column: column.saturating_add(31) }
    }

    /// The byte after ESC.
    #[rustfmt::skip]
    pub const fn second(&self) -> u8 {
        match self {
            S::Print { .. } => 37, S::Clear => 42, S::CursorOff => 50, S::CursorOn => 51,
            S::PlaceCursor { .. } => 61, S::CharacterSet { .. } => 67, S::Copy => 80,
            S::EraseLine => 84, S::EraseScreen => 89, S::SecretOn => 123, S::SecretOff => 125,
            S::ScrollUp { .. } => 144, S::ScrollDown { .. } => 145, S::Step { .. } => 148,
            S::Tracking { .. } => 149, S::WindowUp => 150, S::WindowDown => 151,
            S::InsOn => 160, S::InsOff => 161, S::CapsOn => 162, S::CapsOff => 163,
            S::NumOn => 164, S::NumOff => 165, S::KeyCodes => 176, S::KeyStrings => 177,
            S::DrawLine { .. } => 198, S::SetDot { .. } => 199,
            S::Mode0 { .. } | S::Mode1 { .. } | S::Mode2 { .. } | S::Mode3 => 208,
            S::Select { .. } => 209, S::Cover { .. } => 210, S::KeyDisplay { .. } => 211,
            S::WindowTop => 212, S::WindowEnd => 213, S::CursorType { .. } => 214,
            S::WindowToCursor => 215, S::Pattern { .. } => 224, S::KeyRepeat { .. } => 240,
            S::RepeatDelay { .. } => 241, S::RepeatInterval { .. } => 242,
            S::Arrows { .. } => 243, S::ShiftArrows { .. } => 244, S::CtrlArrows { .. } => 245,
            S::ClearKeys => 246, S::ShiftState { .. } => 247,
        }
    }

    /// The bytes after the second one, as sent.
    pub fn parameters(&self) -> Vec<u8> {
        self.sent().as_slice().to_vec()
    }

    /// The same without an allocation.
    pub(crate) fn sent(&self) -> Parameters {
        match *self {
            S::Print { code: byte }
            | S::CharacterSet { letter: byte }
            | S::Step { lines: byte }
            | S::Tracking { off: byte }
            | S::Select { screen: byte }
            | S::KeyDisplay { display: byte }
            | S::CursorType { kind: byte }
            | S::KeyRepeat { on: byte }
            | S::RepeatDelay { time: byte }
            | S::RepeatInterval { time: byte }
            | S::ShiftState { state: byte } => Parameters::of([byte]),
            S::PlaceCursor { line, column } => Parameters::of([line, column]),
            S::ScrollUp { above, lines } | S::ScrollDown { above, lines } => Parameters::of([above, lines]),
            S::Cover { row, column, code } => Parameters::of([row, column, code]),
            S::Mode0 { lines1, lines2 } => Parameters::of([0, lines1, lines2]),
            S::Mode1 { lines } => Parameters::of([1, lines]),
            S::Mode2 { lines, columns, boundary } => Parameters::of([2, lines, columns, boundary]),
            S::Mode3 => Parameters::of([3]),
            S::Arrows { codes } | S::ShiftArrows { codes } | S::CtrlArrows { codes } => Parameters::of(codes),
            S::Pattern { code, rows: [a, b, c, d, e, f, g, h] } => {
                Parameters::of([code, a, b, c, d, e, f, g, h])
            }
            S::SetDot { function, vertical, horizontal } => {
                let [high, low] = horizontal.to_be_bytes();
                Parameters::of([function, vertical, high, low])
            }
            S::DrawLine { from, to, mask, function } => of_line([from, to], mask, function),
            _ => Parameters::of([]),
        }
    }

    /// The sequence of a second byte and its parameters; none if there is no such
    /// sequence, or its parameters are more or fewer. Their ranges are not looked at.
    #[rustfmt::skip]
    pub fn of(second: u8, parameters: &[u8]) -> Option<Sequence> {
        Some(match (second, parameters) {
            (37, &[code]) => S::Print { code }, (42, []) => S::Clear,
            (50, []) => S::CursorOff, (51, []) => S::CursorOn,
            (61, &[line, column]) => S::PlaceCursor { line, column },
            (67, &[letter]) => S::CharacterSet { letter }, (80, []) => S::Copy,
            (84, []) => S::EraseLine, (89, []) => S::EraseScreen,
            (123, []) => S::SecretOn, (125, []) => S::SecretOff,
            (144, &[above, lines]) => S::ScrollUp { above, lines },
            (145, &[above, lines]) => S::ScrollDown { above, lines },
            (148, &[lines]) => S::Step { lines }, (149, &[off]) => S::Tracking { off },
            (150, []) => S::WindowUp, (151, []) => S::WindowDown,
            (160, []) => S::InsOn, (161, []) => S::InsOff, (162, []) => S::CapsOn,
            (163, []) => S::CapsOff, (164, []) => S::NumOn, (165, []) => S::NumOff,
            (176, []) => S::KeyCodes, (177, []) => S::KeyStrings,
            (199, &[function, vertical, high, low]) =>
                S::SetDot { function, vertical, horizontal: u16::from_be_bytes([high, low]) },
            (208, &[0, lines1, lines2]) => S::Mode0 { lines1, lines2 },
            (208, &[1, lines]) => S::Mode1 { lines },
            (208, &[2, lines, columns, boundary]) => S::Mode2 { lines, columns, boundary },
            (208, [3]) => S::Mode3, (209, &[screen]) => S::Select { screen },
            (210, &[row, column, code]) => S::Cover { row, column, code },
            (211, &[display]) => S::KeyDisplay { display },
            (212, []) => S::WindowTop, (213, []) => S::WindowEnd,
            (214, &[kind]) => S::CursorType { kind }, (215, []) => S::WindowToCursor,
            (224, &[code, ref rows @ ..]) => S::Pattern { code, rows: rows.try_into().ok()? },
            (240, &[on]) => S::KeyRepeat { on }, (241, &[time]) => S::RepeatDelay { time },
            (242, &[time]) => S::RepeatInterval { time }, (246, []) => S::ClearKeys,
            (247, &[state]) => S::ShiftState { state },
            (243, codes) => S::Arrows { codes: codes.try_into().ok()? },
            (244, codes) => S::ShiftArrows { codes: codes.try_into().ok()? },
            (245, codes) => S::CtrlArrows { codes: codes.try_into().ok()? },
            (198, bytes) => line(bytes.try_into().ok()?),
            _ => return None,
        })
    }
}

/// Parameters as they are sent.
pub(crate) struct Parameters {
    bytes: [u8; PARAMETERS_MOST],
    length: usize,
}

impl Parameters {
    fn of<const N: usize>(given: [u8; N]) -> Parameters {
        let mut bytes = [0; PARAMETERS_MOST];
        bytes[..N].copy_from_slice(&given);
        Parameters { bytes, length: N }
    }

    pub(crate) fn as_slice(&self) -> &[u8] {
        &self.bytes[..self.length]
    }
}

fn of_line(ends: [Dot; 2], mask: u16, function: u8) -> Parameters {
    let [[a, b, c, d], [e, f, g, h]] = ends.map(|dot| {
        let ([high, low], [above, below]) = (dot.horizontal.to_be_bytes(), dot.vertical.to_be_bytes());
        [high, low, above, below]
    });
    let [first, second] = mask.to_be_bytes();
    Parameters::of([a, b, c, d, e, f, g, h, first, second, function])
}

fn line([a, b, c, d, e, f, g, h, first, second, function]: [u8; PARAMETERS_MOST]) -> Sequence {
    let number = |high: u8, low: u8| u16::from_be_bytes([high, low]);
    S::DrawLine {
        from: Dot { horizontal: number(a, b), vertical: number(c, d) },
        to: Dot { horizontal: number(e, f), vertical: number(g, h) },
        mask: number(first, second),
        function,
    }
}

impl fmt::Display for Sequence {
    /// In words; numbers as a reader takes them, good or not.
    fn fmt(&self, f: &mut fmt::Formatter) -> fmt::Result {
        match *self {
            S::Print { code } => write!(f, "print code {code}"),
            S::PlaceCursor { line, column } => {
                let counted = |sent: u8| i16::from(sent) - 31;
                write!(f, "cursor to line {}, column {}", counted(line), counted(column))
            }
            S::CharacterSet { letter } => write!(f, "character set {}", letter.escape_ascii()),
            S::ScrollUp { above, lines } => write!(f, "{lines} lines below line {above} up by one"),
            S::ScrollDown { above, lines } => write!(f, "{lines} lines below line {above} down by one"),
            S::Step { lines } => write!(f, "step {lines}"),
            S::DrawLine { from, to, mask, function } => {
                write!(f, "line of dots from {from} to {to}, mask {mask:016b}, function {function}")
            }
            S::SetDot { function, vertical, horizontal } => {
                let dot = Dot { horizontal, vertical: vertical.into() };
                write!(f, "dot {dot}, function {function}")
            }
            S::Mode0 { lines1, lines2 } => write!(f, "mode 0, {lines1} and {lines2} lines"),
            S::Mode1 { lines } => write!(f, "mode 1, {lines} lines"),
            S::Mode2 { lines, columns, boundary } => {
                let other = 79 - i16::from(columns);
                write!(f, "mode 2, {lines} lines, {columns} and {other} columns, boundary {boundary}")
            }
            S::Select { screen } => write!(f, "select screen {}", u16::from(screen) + 1),
            S::Cover { row, column, code } => write!(f, "cover row {row}, column {column} with code {code}"),
            S::CursorType { kind } => write!(f, "cursor type {kind}"),
            S::Pattern { code, rows } => write!(f, "pattern of code {code}: rows {rows:?}"),
            S::RepeatDelay { time } => write!(f, "key repeat starts after {time}/64 s"),
            S::RepeatInterval { time } => write!(f, "key repeat every {time}/256 s"),
            S::Arrows { codes } => write!(f, "arrow keys send {codes:?}"),
            S::ShiftArrows { codes } => write!(f, "arrow keys with SHIFT send {codes:?}"),
            S::CtrlArrows { codes } => write!(f, "arrow keys with CTRL send {codes:?}"),
            S::ShiftState { state } => write!(f, "shift state {state}"),
            S::Tracking { off: byte } | S::KeyDisplay { display: byte } | S::KeyRepeat { on: byte } => {
                f.write_str(self.words())?;
                switched(f, self.second() == 240, byte)
            }
            _ => f.write_str(self.words()),
        }
    }
}

/// " on" or " off"; 0 is on but for the key repeat. Any other byte stands as it is.
fn switched(f: &mut fmt::Formatter, on: bool, byte: u8) -> fmt::Result {
    match byte {
        0 | 1 if on == (byte == 1) => f.write_str(" on"),
        0 | 1 => f.write_str(" off"),
        _ => write!(f, " {byte}"),
    }
}

impl Sequence {
    /// The words of a sequence that need no number.
    #[rustfmt::skip]
    fn words(&self) -> &'static str {
        match self {
            S::Clear => "clear the screen", S::CursorOff => "cursor off", S::CursorOn => "cursor on",
            S::Copy => "print a copy", S::EraseLine => "erase to the end of the logical line",
            S::EraseScreen => "erase to the end of the screen",
            S::SecretOn => "secret on", S::SecretOff => "secret off",
            S::WindowUp => "window up", S::WindowDown => "window down",
            S::InsOn => "INS on", S::InsOff => "INS off", S::CapsOn => "CAPS on",
            S::CapsOff => "CAPS off", S::NumOn => "NUM on", S::NumOff => "NUM off",
            S::KeyCodes => "function keys send codes", S::KeyStrings => "function keys send strings",
            S::Mode3 => "mode 3", S::WindowTop => "window to the top", S::WindowEnd => "window to the end",
            S::WindowToCursor => "window to the cursor", S::ClearKeys => "clear the key buffer",
            S::Tracking { .. } => "tracking", S::KeyDisplay { .. } => "key line",
            S::KeyRepeat { .. } => "key repeat",
            _ => "",
        }
    }
}

impl fmt::Display for Dot {
    fn fmt(&self, f: &mut fmt::Formatter) -> fmt::Result {
        write!(f, "{} of row {}", self.horizontal, self.vertical)
    }
}
