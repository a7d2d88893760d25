//! The words of the programs `show` and `replay`, and the image of `picture`.

use super::calls::{closing, key_text, message, opening, piece};
use super::pack::pack;
use super::picture::place;
use super::settings::{mark_of, Answer, Settings};
use super::settings::{CELLS, COPY, DOTS, LAYER, MOST_LINES, OPENING, ROWS, SHOWN, WIDTH};
use super::short::message_short;
use super::stream::waits;
use std::fmt::Write;

/// A recording holds at most this many bytes in all.
pub const LONGEST_RECORDING: usize = 1_000_000;
/// The printer room of each call of a recording at first: two copies.
pub const REPLAY_ROOM: usize = 2 * COPY;
/// What a recording can make it at most.
pub const MOST_ROOM: usize = 8192;
/// The kinds of records.
pub const MESSAGE: u16 = 1;
pub const PIECE: u16 = 2;
pub const CLOSING: u16 = 3;
pub const KEY_TEXT: u16 = 4;
pub const PACK: u16 = 5;
pub const SHORT_MESSAGE: u16 = 6;
pub const OPENING_CALL: u16 = 7;
pub const ROOM: u16 = 8;

/// The message call, the short one and the piece call.
type MessageCall =
    fn(Settings, &[u8], &mut [u8], &mut [u8], &mut [u8], &mut [u8], &mut [u8]) -> (Settings, Answer);

/// The stores with what stands, and the printer bytes of all calls so far.
pub struct Session {
    pub settings: Settings,
    pub cells: Vec<u8>,
    pub layer: Vec<u8>,
    pub shown: Vec<u8>,
    pub dots: Vec<u8>,
    pub printed: Vec<u8>,
    /// the printer room of a recording's calls from here on
    pub room: usize,
}

impl Session {
    pub fn open() -> Session {
        let mut session = Session {
            settings: OPENING,
            cells: vec![0; CELLS],
            layer: vec![0; LAYER],
            shown: vec![0; SHOWN],
            dots: vec![0; DOTS],
            printed: Vec::new(),
            room: REPLAY_ROOM,
        };
        session.opening(1);
        session
    }

    /// Opens anew by a rule: the settings that this returns are used from then
    /// on, refused or not.
    pub fn opening(&mut self, rule: usize) -> u8 {
        let Session { cells, layer, shown, dots, .. } = self;
        let (settings, number) = opening(rule, cells, layer, shown, dots);
        self.settings = settings;
        number
    }

    pub fn play(&mut self, bytes: &[u8], room: usize) -> Answer {
        self.with_printer(message, bytes, room)
    }

    pub fn piece(&mut self, bytes: &[u8], room: usize) -> Answer {
        self.with_printer(piece, bytes, room)
    }

    /// A message that paints less.
    pub fn short(&mut self, bytes: &[u8], room: usize) -> Answer {
        self.with_printer(message_short, bytes, room)
    }

    pub fn closing(&mut self) -> Answer {
        let Session { settings, cells, layer, shown, dots, .. } = self;
        let (settings, answer) = closing(*settings, cells, layer, shown, dots);
        self.settings = settings;
        answer
    }

    /// Messages in one call, and the record of the first refusal.
    pub fn pack(&mut self, bytes: &[u8], room: usize) -> (Answer, u32) {
        let mut printer = vec![0; room];
        let Session { settings, cells, layer, shown, dots, .. } = self;
        let (settings, answer, record) = pack(*settings, bytes, cells, layer, shown, dots, &mut printer);
        self.settings = settings;
        self.printed.extend_from_slice(&printer[..answer.printed]);
        (answer, record)
    }

    pub fn key_text(&mut self, number: usize, text: &[u8]) -> Answer {
        let (settings, answer) = key_text(self.settings, number, text);
        self.settings = settings;
        answer
    }

    fn with_printer(&mut self, call: MessageCall, bytes: &[u8], room: usize) -> Answer {
        let mut printer = vec![0; room];
        let Session { settings, cells, layer, shown, dots, .. } = self;
        let (settings, answer) = call(*settings, bytes, cells, layer, shown, dots, &mut printer);
        self.settings = settings;
        self.printed.extend_from_slice(&printer[..answer.printed]);
        answer
    }

    /// Plays a record and gives its line; none if its kind or its body is not
    /// known.
    fn record(&mut self, number: usize, kind: u16, body: &[u8]) -> Option<String> {
        let answer = match (kind, body) {
            (MESSAGE, _) => self.play(body, self.room),
            (PIECE, _) => self.piece(body, self.room),
            (SHORT_MESSAGE, _) => self.short(body, self.room),
            (CLOSING, []) => self.closing(),
            (PACK, _) => {
                let (answer, record) = self.pack(body, self.room);
                return Some(pack_answer(number, &answer, record));
            }
            (KEY_TEXT, [key, text @ ..]) => {
                let answer = self.key_text(usize::from(*key), text);
                return Some(short_answer(number, answer.number));
            }
            (OPENING_CALL, [rule]) => {
                let answer = self.opening((*rule).into());
                return Some(short_answer(number, answer));
            }
            (ROOM, &[low, high]) => return self.set_room(number, u16::from_le_bytes([low, high])),
            _ => return None,
        };
        Some(numbered_answer(number, &answer))
    }

    /// A record of kind 8; none if the room is larger than it may be.
    fn set_room(&mut self, number: usize, room: u16) -> Option<String> {
        self.room = Some(room.into()).filter(|&room| room <= MOST_ROOM)?;
        Some(format!("{number} room {room}\n"))
    }

    /// What stands, in the words of `replay`: settings, sums and rows.
    pub fn text(&self) -> String {
        settings_text(&self.settings) + &self.sums() + &rows(&self.shown)
    }

    fn sums(&self) -> String {
        format!(
            "sums cells {} layer {} patterns {} printer {} texts {} dots {}\n",
            adler32(&self.cells),
            adler32(&self.layer),
            adler32(&self.settings.patterns),
            adler32(&self.printed),
            adler32(&self.settings.texts),
            adler32(&self.dots)
        )
    }

    /// What the glass shows as a picture: in mode 3 the dots, a portable bitmap
    /// of 480 by 64; else the shown screen, a portable graymap of 80 by 8 in which
    /// a place is a point and its code the grey.
    pub fn image(&self) -> Vec<u8> {
        if self.settings.mode == 3 {
            return [&b"P4\n480 64\n"[..], &self.dots].concat();
        }
        [&b"P5\n80 8\n255\n"[..], &self.shown].concat()
    }
}

/// Program "show": the answer and the rows.
pub fn show(bytes: &[u8]) -> String {
    let mut session = Session::open();
    let answer = session.play(bytes, COPY);
    format!("{}\n{}", answer_text(&answer), rows(&session.shown))
}

/// Program "replay": a line a record, then what stands.
pub fn replay(recording: &[u8]) -> String {
    let (session, text) = played(recording);
    text + &session.text()
}

/// Program "picture": a recording played as by "replay", and then the image of what
/// stands, which is all that it writes. A bad record ends the recording there too.
pub fn image(recording: &[u8]) -> Vec<u8> {
    played(recording).0.image()
}

/// A recording played from an opening: what stands, and a line a record.
fn played(recording: &[u8]) -> (Session, String) {
    let mut session = Session::open();
    let mut text = String::new();
    let mut offset = 0;
    let mut number = 0;
    while offset < recording.len() {
        number += 1;
        let read = record(recording, offset).filter(|(_, body)| offset + 4 + body.len() <= LONGEST_RECORDING);
        let played = read.and_then(|(kind, body)| session.record(number, kind, body));
        let Some(line) = played else {
            writeln!(text, "{number} bad record").unwrap();
            break;
        };
        text += &line;
        offset += 4 + read.map_or(0, |(_, body)| body.len());
    }
    (session, text)
}

/// The record at `offset`: "body length and kind, two bytes each,
/// little-endian, then the body"; none if it is cut.
pub fn record(recording: &[u8], offset: usize) -> Option<(u16, &[u8])> {
    let head = recording.get(offset..offset + 4)?;
    let length = usize::from(u16::from_le_bytes([head[0], head[1]]));
    let kind = u16::from_le_bytes([head[2], head[3]]);
    let body = recording.get(offset + 4..offset + 4 + length)?;
    Some((kind, body))
}

pub fn answer_text(answer: &Answer) -> String {
    format!(
        "answer {} taken {} accepted {} refused {} first {} at {}",
        answer.number, answer.taken, answer.accepted, answer.refused, answer.first, answer.offset
    )
}

/// A message's line in a replay, where the parameter stands last.
pub fn numbered_answer(number: usize, answer: &Answer) -> String {
    let Answer { printed, parameter, .. } = answer;
    format!("{number} {} printed {printed} parameter {parameter}\n", answer_text(answer))
}

/// A pack's line in a replay: a message's, and the record.
pub fn pack_answer(number: usize, answer: &Answer, record: u32) -> String {
    format!("{} record {record}\n", numbered_answer(number, answer).trim_end())
}

/// The line of a key text and of an opening in a replay: they count nothing.
pub fn short_answer(number: usize, answer: u8) -> String {
    format!("{number} answer {answer}\n")
}

pub fn settings_text(s: &Settings) -> String {
    let keys = &s.keys;
    let mut text = format!(
        "mode {} lines {} {} columns {} {} selected {}\n",
        s.mode,
        s.lines1,
        s.lines2,
        s.columns1,
        s.columns2,
        s.selected + 1
    );
    for (screen, place) in s.places.iter().enumerate() {
        let number = screen + 1;
        text += &format!("screen {number} line {} column {} top {}\n", place.line, place.column, place.top);
    }
    text += &format!(
        "tracking {} step {} cursor {} type {} boundary {} secret {} leds {} {} {} set {}\n",
        s.tracking,
        s.step,
        s.cursor,
        s.kind,
        s.boundary,
        s.secret,
        keys.leds[0],
        keys.leds[1],
        keys.leds[2],
        keys.charset
    );
    text += &format!(
        "strings {} display {} repeat {} {} {} shift {}\narrows",
        keys.strings, s.display, keys.repeat, keys.delay, keys.interval, keys.shift
    );
    for code in keys.arrows {
        write!(text, " {code}").unwrap();
    }
    write!(text, "\nstream count {} waiting", s.count).unwrap();
    for byte in waits(s) {
        write!(text, " {byte}").unwrap();
    }
    let flags = s.places.map(|place| place.waiting);
    let rule = format!("rule {} flags {} {}\n", s.rule, flags[0], flags[1]);
    text + "\n" + &runs(s, 0) + &runs(s, 1) + &rule
}

/// The marked lines of a screen.
fn runs(s: &Settings, screen: usize) -> String {
    let mut text = format!("runs {}", screen + 1);
    for line in (1..=MOST_LINES).filter(|&line| s.marks[mark_of(screen, line)] == 1) {
        write!(text, " {line}").unwrap();
    }
    text + "\n"
}

/// The eight rows without trailing blanks, codes outside 32 to 126 as a dot.
pub fn rows(shown: &[u8]) -> String {
    let mut text = String::new();
    for row in 1..=ROWS {
        let start = place(row, 1);
        let codes = &shown[start..start + WIDTH];
        let line: String = codes.iter().map(|&code| letter(code)).collect();
        text += format!("{row} {line}").trim_end_matches(' ');
        text += "\n";
    }
    text
}

pub fn letter(code: u8) -> char {
    if (32..=126).contains(&code) {
        char::from(code)
    } else {
        '.'
    }
}

pub fn adler32(bytes: &[u8]) -> u32 {
    let (mut low, mut high) = (1u32, 0u32);
    for &byte in bytes {
        low = (low + u32::from(byte)) % 65_521;
        high = (high + low) % 65_521;
    }
    high << 16 | low
}
