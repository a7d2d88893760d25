//! A terminal that owns its stores.

use crate::calls;
use crate::packs::{self, PackReply};
use crate::refused::Refused;
use crate::sequence::Sequence;
#[cfg(feature = "std")]
use crate::stream::Stream;
use crate::types::{Answer, CELLS, COPY, LAYER, MESSAGE_MOST, ROWS, SHOWN, Settings, WIDTH};
use crate::types::{DOT_COLUMNS, DOT_ROW, DOT_ROWS, DOTS, PACK_MOST};
use crate::writer::{Unwritten, Writer};
use alloc::format;
use alloc::string::String;
use alloc::vec;
use alloc::vec::Vec;
use core::fmt;

/// A terminal with its settings and stores.
///
/// ```
/// let mut terminal = px8::Terminal::open();
/// let reply = terminal.message(b"\x1b=\x23\x2438,500 kg");
/// assert!(reply.answer.is_clean());
/// assert_eq!(terminal.to_string(), "1\n2\n3\n4     38,500 kg\n5\n6\n7\n8\n");
/// ```
#[derive(Clone, PartialEq, Eq)]
pub struct Terminal {
    settings: Settings,
    cells: [u8; CELLS],
    layer: [u8; LAYER],
    shown: [u8; SHOWN],
    dots: [u8; DOTS],
}

/// What a message or a piece gives back.
#[derive(Clone, Debug, Default, PartialEq, Eq)]
#[must_use]
pub struct Reply {
    /// The counts and the first refusal.
    pub answer: Answer,
    /// The printed copies, [`COPY`] bytes each, in mode 3 [`DOTS`].
    pub printed: Vec<u8>,
}

impl Terminal {
    /// A terminal as the opening call by rule 1 leaves it.
    pub fn open() -> Terminal {
        // the stores are of their sizes, and rule 1 is one
        Terminal::open_with(1).expect("rule 1 is served")
    }

    /// A terminal as the opening call by this rule leaves it; or [`Refused::BadRule`]. By rule 2 the
    /// cursor stays in the last column, late, until the next character is printed.
    ///
    /// ```
    /// let mut terminal = px8::Terminal::open_with(2)?;
    /// terminal.message(&[b'x'; 80]);
    /// let place = terminal.settings().places[0];
    /// assert_eq!((place.line, place.column, place.late), (1, 80, 1));
    /// terminal.message(b"yz");
    /// let place = terminal.settings().places[0];
    /// assert_eq!((place.line, place.column, place.late), (2, 3, 0));
    ///
    /// assert_eq!(px8::Terminal::open_with(3), Err(px8::Refused::BadRule));
    /// # Ok::<(), px8::Refused>(())
    /// ```
    pub fn open_with(rule: usize) -> Result<Terminal, Refused> {
        let (mut cells, mut layer) = ([0; CELLS], [0; LAYER]);
        let (mut shown, mut dots) = ([0; SHOWN], [0; DOTS]);
        let (settings, number) = calls::opening(rule, &mut cells, &mut layer, &mut shown, &mut dots);
        Refused::unless_served(number, Terminal { settings, cells, layer, shown, dots })
    }

    /// A terminal taken up again from what was saved, in the middle of a
    /// stream too. Nothing is judged here: with settings that are not sound
    /// every message, piece and closing is refused, by 3 or, if it is too long,
    /// by 2. The shown screen is painted by the next that is served; a short message
    /// paints only its part.
    ///
    /// ```
    /// let mut terminal = px8::Terminal::open();
    /// terminal.message(b"tare");
    /// let (cells, layer) = (*terminal.cells(), *terminal.layer());
    /// let (shown, dots) = (*terminal.shown(), *terminal.dots());
    /// let again = px8::Terminal::resume(*terminal.settings(), cells, layer, shown, dots);
    /// assert_eq!(again, terminal);
    /// ```
    pub fn resume(
        settings: Settings,
        cells: [u8; CELLS],
        layer: [u8; LAYER],
        shown: [u8; SHOWN],
        dots: [u8; DOTS],
    ) -> Terminal {
        Terminal { settings, cells, layer, shown, dots }
    }

    /// Reads a message, with printer room for every copy that it asks for. A
    /// sequence that is refused is skipped alone, and what follows is obeyed:
    /// [`Answer::is_clean`] says whether there was none.
    ///
    /// ```
    /// let mut terminal = px8::Terminal::open();
    /// let reply = terminal.message(b"net\x1bP\rtare\x1bP");
    /// assert_eq!(reply.printed.len(), 2 * px8::COPY);
    /// assert!(reply.printed.starts_with(b"net "));
    /// assert!(reply.printed[px8::COPY..].starts_with(b"tare "));
    /// ```
    pub fn message(&mut self, message: &[u8]) -> Reply {
        self.message_with_room(message, self.room_for(message, MESSAGE_MOST))
    }

    /// Reads a message with just so much printer room.
    ///
    /// ```
    /// let mut terminal = px8::Terminal::open();
    /// let reply = terminal.message_with_room(&[27, 80], px8::COPY - 1);
    /// assert_eq!((reply.answer.first, reply.printed.len()), (px8::NO_ROOM, 0));
    /// ```
    pub fn message_with_room(&mut self, message: &[u8], room: usize) -> Reply {
        let mut printer = vec![0; room];
        let answer = self.message_into(message, &mut printer).0;
        printer.truncate(answer.printed as usize);
        Reply { answer, printed: printer }
    }

    /// Reads a message with a lent printer buffer, and hands back the answer
    /// and the part of the buffer that holds copies. Nothing is allocated.
    pub fn message_into<'a>(&mut self, message: &[u8], printer: &'a mut [u8]) -> (Answer, &'a [u8]) {
        let Terminal { settings, cells, layer, shown, dots } = self;
        let answer = calls::message(settings, message, cells, layer, shown, dots, printer);
        (answer, calls::printed(printer, answer.printed))
    }

    /// Reads a message and paints less than [`message`](Terminal::message) does, with
    /// printer room for every copy that it asks for: row 8, and of rows 1 to 7 the places
    /// in which it printed, or all where something else may have changed. For the few
    /// bytes that a scale sends at a time. On a terminal that was opened here both calls
    /// leave the same; a shown screen that came in by [`resume`](Terminal::resume) and is
    /// not what stands there stays so, but for what is painted.
    ///
    /// ```
    /// let mut terminal = px8::Terminal::open();
    /// terminal.message(b"\x1b=\x23\x24       kg");
    /// for part in [&b"\x1b=\x23\x2438"[..], b",", b"500"] {
    ///     assert!(terminal.message_short(part).answer.is_clean());
    /// }
    /// assert_eq!(terminal.to_string(), "1\n2\n3\n4     38,500 kg\n5\n6\n7\n8\n");
    /// ```
    pub fn message_short(&mut self, message: &[u8]) -> Reply {
        self.message_short_with_room(message, self.room_for(message, MESSAGE_MOST))
    }

    /// Reads a short message with just so much printer room.
    ///
    /// ```
    /// let mut terminal = px8::Terminal::open();
    /// let reply = terminal.message_short_with_room(&[27, 80], px8::COPY - 1);
    /// assert_eq!((reply.answer.first, reply.printed.len()), (px8::NO_ROOM, 0));
    /// ```
    pub fn message_short_with_room(&mut self, message: &[u8], room: usize) -> Reply {
        let mut printer = vec![0; room];
        let answer = self.message_short_into(message, &mut printer).0;
        printer.truncate(answer.printed as usize);
        Reply { answer, printed: printer }
    }

    /// Reads a short message with a lent printer buffer, and hands back the answer and
    /// the part of the buffer that holds copies. Nothing is allocated.
    ///
    /// ```
    /// let mut terminal = px8::Terminal::open();
    /// let (answer, copy) = terminal.message_short_into(b"38,500", &mut []);
    /// assert_eq!((answer.taken, copy), (6, &[][..]));
    /// ```
    pub fn message_short_into<'a>(&mut self, message: &[u8], printer: &'a mut [u8]) -> (Answer, &'a [u8]) {
        let Terminal { settings, cells, layer, shown, dots } = self;
        let answer = calls::message_short(settings, message, cells, layer, shown, dots, printer);
        (answer, calls::printed(printer, answer.printed))
    }

    /// Reads the next piece of a stream, with printer room for every copy that
    /// it asks for. A sequence may be cut anywhere: what is unfinished waits for
    /// the next piece, and [`Answer::offset`] counts from the stream's start.
    /// While bytes wait a message is refused by [`BYTES_WAIT`](crate::BYTES_WAIT).
    ///
    /// ```
    /// let mut terminal = px8::Terminal::open();
    /// for part in [&b"38\x1b"[..], b"=", b"#$,50", b"0"] {
    ///     assert!(terminal.piece(part).answer.is_clean());
    /// }
    /// assert!(terminal.closing().is_clean());
    /// assert_eq!(terminal.to_string(), "1 38\n2\n3\n4     ,500\n5\n6\n7\n8\n");
    /// ```
    pub fn piece(&mut self, piece: &[u8]) -> Reply {
        self.piece_with_room(piece, self.room_for(piece, MESSAGE_MOST))
    }

    /// Reads a piece with just so much printer room.
    ///
    /// ```
    /// let mut terminal = px8::Terminal::open();
    /// terminal.piece_with_room(&[27, 80, 27], px8::COPY);
    /// let answer = terminal.piece_with_room(&[80], px8::COPY - 1).answer;
    /// assert_eq!((answer.first, answer.offset), (px8::NO_ROOM, 2));
    /// ```
    pub fn piece_with_room(&mut self, piece: &[u8], room: usize) -> Reply {
        let mut printer = vec![0; room];
        let answer = self.piece_into(piece, &mut printer).0;
        printer.truncate(answer.printed as usize);
        Reply { answer, printed: printer }
    }

    /// Reads a piece with a lent printer buffer, and hands back the answer and
    /// the part of the buffer that holds copies. Nothing is allocated.
    ///
    /// ```
    /// let mut terminal = px8::Terminal::open();
    /// let mut printer = [0; px8::COPY];
    /// terminal.piece_into(b"net\x1b", &mut printer);
    /// let (answer, copy) = terminal.piece_into(b"P", &mut printer);
    /// assert_eq!(answer.taken, 1);
    /// assert!(copy.starts_with(b"net "));
    /// ```
    pub fn piece_into<'a>(&mut self, piece: &[u8], printer: &'a mut [u8]) -> (Answer, &'a [u8]) {
        let Terminal { settings, cells, layer, shown, dots } = self;
        let answer = calls::piece(settings, piece, cells, layer, shown, dots, printer);
        (answer, calls::printed(printer, answer.printed))
    }

    /// Closes the stream: 27, 209 that waits means 27, 209, 0, another
    /// unfinished sequence is refused by 12; then the waiting bytes and the
    /// count are forgotten. It prints nothing.
    ///
    /// ```
    /// let mut terminal = px8::Terminal::open();
    /// terminal.message(&[27, 209, 1]);
    /// terminal.piece(&[27, 209]);
    /// assert_eq!(terminal.settings().selected, 1);
    /// assert_eq!(terminal.closing().to_string(), "answer 0 taken 0 accepted 1 refused 0 first 0 at 0");
    /// assert_eq!((terminal.settings().selected, terminal.settings().count), (0, 0));
    /// ```
    pub fn closing(&mut self) -> Answer {
        let Terminal { settings, cells, layer, shown, dots } = self;
        calls::closing(settings, cells, layer, shown, dots)
    }

    /// Reads many messages in one call, with printer room for every copy that they
    /// ask for. It is as if each had been a message of its own; either all are taken
    /// or, where the answer has a number, none.
    ///
    /// ```
    /// let mut terminal = px8::Terminal::open();
    /// let loads = [38_500, 40_120, 39_880];
    /// let reply = terminal.pack(loads.map(|load| format!("{load} kg\r\n")));
    /// assert!(reply.answer.is_clean());
    /// assert_eq!(terminal.to_string(), "1 38500 kg\n2 40120 kg\n3 39880 kg\n4\n5\n6\n7\n8\n");
    /// ```
    pub fn pack<M: AsRef<[u8]>>(&mut self, messages: impl IntoIterator<Item = M>) -> PackReply {
        self.pack_bytes(&packs::packed(messages))
    }

    /// Reads a pack as the office sends it, with printer room for every copy.
    ///
    /// ```
    /// let mut terminal = px8::Terminal::open();
    /// let reply = terminal.pack_bytes(&[2, 0, 1, 0, b'3', b'8', 1, 0, 1, 0, b't']);
    /// assert_eq!((reply.answer.taken, reply.record), (3, 0));
    /// assert!(terminal.to_string().starts_with("1 38t\n"));
    /// assert_eq!(terminal.pack_bytes(&[2, 0, 1, 0, b'3']).answer.number, px8::CUT_RECORD);
    /// ```
    pub fn pack_bytes(&mut self, pack: &[u8]) -> PackReply {
        self.pack_with_room(pack, self.room_for(pack, PACK_MOST))
    }

    /// Reads a pack with just so much printer room for all of it.
    pub fn pack_with_room(&mut self, pack: &[u8], room: usize) -> PackReply {
        let mut printer = vec![0; room];
        let Terminal { settings, cells, layer, shown, dots } = self;
        let (answer, record) = packs::pack(settings, pack, cells, layer, shown, dots, &mut printer);
        printer.truncate(answer.printed as usize);
        PackReply { answer, record, printed: printer }
    }

    /// Sets the text of a key, 1 to 10: eight codes for the key line, which row
    /// 8 is after 27, 211, 0. It is shown by the next message, piece, closing
    /// or pack that has a record.
    /// The answer has [`SERVED`](crate::SERVED), [`UNSOUND`](crate::UNSOUND) or
    /// [`BAD_KEY_TEXT`](crate::BAD_KEY_TEXT), and nothing else.
    ///
    /// ```
    /// let mut terminal = px8::Terminal::open();
    /// assert!(terminal.key_text(1, b"TARE    ").is_clean());
    /// assert!(terminal.key_text(2, b"PRINT   ").is_clean());
    /// terminal.message(&[27, 211, 0]);
    /// assert_eq!(terminal.to_string(), "1\n2\n3\n4\n5\n6\n7\n8 TARE    PRINT\n");
    /// assert_eq!(terminal.key_text(11, b"PRINT   ").number, px8::BAD_KEY_TEXT);
    /// ```
    pub fn key_text(&mut self, number: usize, text: &[u8]) -> Answer {
        calls::key_text(&mut self.settings, number, text)
    }

    /// The stream as something to write to, from where it stands.
    ///
    /// ```
    /// use std::io::Write;
    /// let mut terminal = px8::Terminal::open();
    /// let mut stream = terminal.stream();
    /// write!(stream, "load {}", 38_500).unwrap();
    /// assert!(stream.close().unwrap().answer.is_clean());
    /// assert!(terminal.to_string().starts_with("1 load 38500\n"));
    /// ```
    #[cfg(feature = "std")]
    pub fn stream(&mut self) -> Stream<'_> {
        Stream::of(self)
    }

    /// The bytes of these sequences, one behind another, each judged by the settings that
    /// stand; or why the first that is refused is not written.
    ///
    /// ```
    /// use px8::Sequence;
    /// let mut terminal = px8::Terminal::open();
    /// let bytes = terminal.write([Sequence::Select { screen: 1 }, Sequence::cursor_to(2, 3)])?;
    /// assert_eq!(bytes, [27, 209, 1, 27, 61, 33, 34]);
    /// assert!(terminal.message(&bytes).answer.is_clean());
    /// let refused = terminal.write([Sequence::Clear, Sequence::cursor_to(25, 1)]).unwrap_err();
    /// assert_eq!(refused.to_string(), "not written, number 11: parameter 1 is outside its range");
    /// # Ok::<(), px8::Unwritten>(())
    /// ```
    pub fn write(&self, sequences: impl IntoIterator<Item = Sequence>) -> Result<Vec<u8>, Unwritten> {
        let mut writer = Writer::new(Vec::new());
        for sequence in sequences {
            writer.write(&self.settings, sequence)?;
        }
        Ok(writer.into_inner())
    }

    /// Which codes a trace sends under the key repeat that stands, as ticks of
    /// 1/256 second and keys; or why the trace is refused.
    ///
    /// ```
    /// let mut terminal = px8::Terminal::open();
    /// terminal.message(&[27, 241, 10, 27, 242, 20]);
    /// let trace = [[5, 0, 1, 0, 0, 0, 0, 0, b'A'], [5, 0, 2, 0, 61, 0, 0, 0, b'A']].concat();
    /// assert_eq!(terminal.key_repeats(&trace, 9), Ok(vec![(0, b'A'), (40, b'A'), (60, b'A')]));
    /// assert_eq!(terminal.key_repeats(&trace[1..], 9), Err(px8::Refused::CutRecord));
    /// assert_eq!(terminal.key_repeats(&trace, 2), Err(px8::Refused::OutputTooSmall));
    /// ```
    pub fn key_repeats(&self, trace: &[u8], codes_most: usize) -> Result<Vec<(u32, u8)>, Refused> {
        let mut output = vec![0; 5 * codes_most];
        let repeats = calls::key_repeats(&self.settings, trace, &mut output);
        Refused::unless_served(repeats.number, ())?;
        let codes = output.as_chunks().0.iter().take(repeats.count as usize);
        Ok(codes.map(|&[a, b, c, d, key]| (u32::from_le_bytes([a, b, c, d]), key)).collect())
    }

    /// The settings that stand.
    pub fn settings(&self) -> &Settings {
        &self.settings
    }

    /// The cells of both screens.
    pub fn cells(&self) -> &[u8; CELLS] {
        &self.cells
    }

    /// The layer: marks, then codes.
    pub fn layer(&self) -> &[u8; LAYER] {
        &self.layer
    }

    /// The shown screen.
    pub fn shown(&self) -> &[u8; SHOWN] {
        &self.shown
    }

    /// The dots of mode 3: 64 rows of 60 bytes, the leftmost dot in the highest
    /// bit.
    pub fn dots(&self) -> &[u8; DOTS] {
        &self.dots
    }

    /// The 64 rows of dots, as bits.
    ///
    /// ```
    /// let mut terminal = px8::Terminal::open();
    /// // mode 3, and a line from dot 12 of row 5 to dot 19
    /// terminal.message(&[27, 208, 3, 27, 198, 0, 12, 0, 5, 0, 19, 0, 5, 255, 255, 2]);
    /// let rows: Vec<_> = terminal.dot_rows().collect();
    /// assert_eq!((rows.len(), &rows[5][..4]), (64, &[0, 0b0000_1111, 0b1111_0000, 0][..]));
    /// ```
    pub fn dot_rows(&self) -> impl ExactSizeIterator<Item = &[u8; DOT_ROW]> {
        self.dots.as_chunks().0.iter()
    }

    /// Whether a dot is on; none where there is no such dot.
    ///
    /// ```
    /// let mut terminal = px8::Terminal::open();
    /// terminal.message(&[27, 208, 3, 27, 199, 1, 63, 1, 223]);
    /// assert_eq!((terminal.dot(63, 479), terminal.dot(63, 478)), (Some(true), Some(false)));
    /// assert_eq!((terminal.dot(64, 0), terminal.dot(0, 480)), (None, None));
    /// ```
    pub fn dot(&self, vertical: usize, horizontal: usize) -> Option<bool> {
        if vertical >= DOT_ROWS || horizontal >= DOT_COLUMNS {
            return None;
        }
        Some(self.dots[DOT_ROW * vertical + horizontal / 8] & (128 >> (horizontal % 8)) != 0)
    }

    /// The dots as an image that any viewer opens: a portable bitmap (`P4`).
    ///
    /// ```
    /// let mut terminal = px8::Terminal::open();
    /// terminal.message(&[27, 208, 3, 27, 199, 1, 0, 0, 7]);
    /// let bitmap = terminal.bitmap();
    /// assert_eq!((&bitmap[..12], bitmap.len()), (&b"P4\n480 64\n\x01\x00"[..], 10 + px8::DOTS));
    /// ```
    pub fn bitmap(&self) -> Vec<u8> {
        let mut bytes = format!("P4\n{DOT_COLUMNS} {DOT_ROWS}\n").into_bytes();
        bytes.extend(self.dots);
        bytes
    }

    /// Room for every copy that these bytes can ask for behind those that wait: an
    /// ESC 80 takes two bytes of its own, so there are no more copies than places
    /// where these two stand together. What is longer than `most` prints nothing.
    fn room_for(&self, bytes: &[u8], most: usize) -> usize {
        if bytes.len() > most {
            return 0;
        }
        let line = [self.settings.waiting(), bytes].concat();
        let copies = line.windows(2).filter(|pair| *pair == [27, 80]).count();
        let dots = self.settings.mode == 3 || line.windows(3).any(|three| three == [27, 208, 3]);
        copies * if dots { DOTS } else { COPY }
    }

    /// The eight rows of the shown screen.
    ///
    /// ```
    /// let mut terminal = px8::Terminal::open();
    /// terminal.message(b"gross\r\nnet");
    /// let starts: Vec<&[u8]> = terminal.rows().map(|row| &row[..5]).collect();
    /// assert_eq!(&starts[..3], &[&b"gross"[..], b"net  ", b"     "]);
    /// ```
    pub fn rows(&self) -> impl ExactSizeIterator<Item = &[u8; WIDTH]> {
        self.shown.as_chunks().0.iter()
    }
}

impl Default for Terminal {
    /// [`Terminal::open`].
    fn default() -> Terminal {
        Terminal::open()
    }
}

/// What a person looks for: the mode, the selected screen and its cursor and window, what
/// waits of a stream, and the rows as [`Display`](fmt::Display) has them.
///
/// ```
/// let mut terminal = px8::Terminal::open();
/// assert!(terminal.message(b"net 38,500").answer.is_clean());
/// let said = format!("{terminal:?}");
/// assert!(said.starts_with("Terminal { mode: 0, screen: 1, line: 1, column: 11, late: 0, top: 1, "));
/// assert!(said.contains("\"net 38,500\"") && said.len() < 250, "{said}");
/// ```
impl fmt::Debug for Terminal {
    fn fmt(&self, f: &mut fmt::Formatter) -> fmt::Result {
        let s = &self.settings;
        let mut said = f.debug_struct("Terminal");
        said.field("mode", &s.mode).field("screen", &(u16::from(s.selected) + 1));
        // settings that are not sound may select none
        if let Some(place) = s.places.get(usize::from(s.selected)) {
            said.field("line", &place.line).field("column", &place.column).field("late", &place.late);
            said.field("top", &place.top);
        }
        let rows: Vec<String> = self.rows().map(text).collect();
        said.field("count", &s.count).field("waiting", &s.waiting()).field("rows", &rows);
        said.finish_non_exhaustive()
    }
}

impl fmt::Display for Terminal {
    /// The eight rows as program `show` prints them: numbered, without
    /// trailing blanks, codes outside 32 to 126 as a dot.
    fn fmt(&self, f: &mut fmt::Formatter) -> fmt::Result {
        for (number, row) in (1..=ROWS).zip(self.rows()) {
            let text = text(row);
            // the blank after the number is a trailing one in an empty row
            writeln!(f, "{}", format!("{number} {text}").trim_end_matches(' '))?;
        }
        Ok(())
    }
}

/// A row without trailing blanks.
fn text(row: &[u8; WIDTH]) -> String {
    let end = row.iter().rposition(|&code| code != 32).map_or(0, |last| last + 1);
    row[..end].iter().map(|&code| letter(code)).collect()
}

fn letter(code: u8) -> char {
    if (32..=126).contains(&code) { char::from(code) } else { '.' }
}
