//! Named cases: a name and one or more calls, each with its printer room,
//! played from an opening.
//!
//! The recording (`vectors --recording`) is a row of records in the form of
//! document 02's P6: body length and kind, two bytes each, little-endian,
//! then the body. The limit of 60,000 bytes is not put on the whole file.
//!
//! - kind 0: a new case. The body is its name, in ASCII without blanks. It
//!   starts with an opening, a printer room of 1,312 and no printer bytes.
//! - kind 2: the printer room of the messages that follow in this case. The
//!   body is the number, four bytes, little-endian.
//! - kind 1: a message call with the body as the message and a printer buffer
//!   of just that room.
//! - kind 3: a piece call, as a message call. Kind 4: a closing call, with an
//!   empty body. Kind 5: a key text call; the body is the key's number, eight
//!   bytes, little-endian, and the text. Kind 6: an opening call on the stores
//!   as they stand; the body is the rule, eight bytes, little-endian, and what
//!   it returns is used from then on. Kind 7: a pack call. Kind 8: a short message,
//!   as a message call. `vectors --every N` leaves out the cases that have these.
//!
//! The text (`vectors`) has for each case, in order:
//! - a line `case NAME`,
//! - a line `K answer A taken T accepted C refused R first F at O printed P
//!   parameter N` for each call, K from 1, with ` record J` behind it for a pack; for
//!   a key text and an opening only `K answer A`,
//! - what stands after the last call: the settings' ten lines, the line of
//!   sums (Adler-32; printer: over the printer bytes of all calls of the
//!   case) and the eight rows, as `replay` prints them.

mod dots;
mod examples;
mod keyline;
mod late;
mod layer;
mod lines;
mod packs;
mod parameters;
mod ranges;
mod refusals;
mod scenes;
mod short;
mod streams;

use crate::generate::packs::put;
use crate::generate::Kind;
use crate::{Terminal, REFERENCE};
use reference::text::{numbered_answer, pack_answer, record, short_answer, Session, MESSAGE, REPLAY_ROOM};
use reference::Answer;

pub const NEW_CASE: u16 = 0;
pub const PRINTER_ROOM: u16 = 2;
pub const PIECE: u16 = 3;
pub const CLOSING: u16 = 4;
pub const KEY_TEXT: u16 = 5;
pub const OPENING: u16 = 6;
pub const PACK: u16 = 7;
pub const SHORT: u16 = 8;

pub struct Case {
    pub name: String,
    /// kind, printer room and bytes of each call
    pub calls: Vec<(Kind, usize, Vec<u8>)>,
}

impl Case {
    /// Whether all its calls are messages.
    pub fn messages_alone(&self) -> bool {
        self.calls.iter().all(|(kind, ..)| *kind == Kind::Message)
    }
}

#[derive(Default)]
struct Cases(Vec<Case>);

impl Cases {
    /// A case whose messages have room for two copies each.
    fn add(&mut self, name: impl Into<String>, messages: &[&[u8]]) {
        let messages: Vec<(usize, &[u8])> = messages.iter().map(|&bytes| (REPLAY_ROOM, bytes)).collect();
        self.add_with_room(name, &messages);
    }

    fn add_with_room(&mut self, name: impl Into<String>, messages: &[(usize, &[u8])]) {
        let call = |&(room, bytes): &(usize, &[u8])| (Kind::Message, room, bytes.to_vec());
        self.0.push(Case { name: name.into(), calls: messages.iter().map(call).collect() });
    }

    fn add_calls(&mut self, name: impl Into<String>, calls: &[(Kind, usize, &[u8])]) {
        let calls = calls.iter().map(|&(kind, room, bytes)| (kind, room, bytes.to_vec())).collect();
        self.0.push(Case { name: name.into(), calls });
    }
}

/// All cases, in their order.
pub fn cases() -> Vec<Case> {
    let mut cases = Cases::default();
    examples::bays(&mut cases);
    examples::manual_examples(&mut cases);
    examples::manual_sequences(&mut cases);
    examples::manual_misprints(&mut cases);
    scenes::scenes(&mut cases);
    ranges::range_ends(&mut cases);
    ranges::mode_ends(&mut cases);
    refusals::cut_sequences(&mut cases);
    refusals::refusals(&mut cases);
    refusals::copies(&mut cases);
    layer::layer(&mut cases);
    layer::tracking(&mut cases);
    scenes::windows(&mut cases);
    scenes::wraps_and_lifts(&mut cases);
    scenes::what_else_shows(&mut cases);
    parameters::cases(&mut cases);
    streams::cases(&mut cases);
    keyline::cases(&mut cases);
    lines::cases(&mut cases);
    late::cases(&mut cases);
    dots::cases(&mut cases);
    packs::cases(&mut cases);
    short::cases(&mut cases);
    cases.0
}

// ---- the recording and its text ----

pub fn recording(cases: &[Case]) -> Vec<u8> {
    let mut bytes = Vec::new();
    for case in cases {
        put(&mut bytes, NEW_CASE, case.name.as_bytes());
        let mut standing = REPLAY_ROOM;
        for (kind, room, message) in &case.calls {
            if *room != standing {
                put(&mut bytes, PRINTER_ROOM, &(*room as u32).to_le_bytes());
                standing = *room;
            }
            match kind {
                Kind::Message => put(&mut bytes, MESSAGE, message),
                Kind::Short => put(&mut bytes, SHORT, message),
                Kind::Piece => put(&mut bytes, PIECE, message),
                Kind::Closing => put(&mut bytes, CLOSING, message),
                Kind::Pack => put(&mut bytes, PACK, message),
                Kind::KeyText(key) => {
                    let number = (*key as u64).to_le_bytes();
                    put(&mut bytes, KEY_TEXT, &[&number, &message[..]].concat());
                }
                Kind::Opening(rule) => put(&mut bytes, OPENING, &(*rule as u64).to_le_bytes()),
            }
        }
    }
    bytes
}

/// Plays a recording with the reference; none if a record is bad.
pub fn play(recording: &[u8]) -> Option<String> {
    play_on(&mut { REFERENCE }, recording)
}

/// Plays a recording on any implementation; none if a record is bad.
pub fn play_on(terminal: &mut dyn Terminal, recording: &[u8]) -> Option<String> {
    let mut text = String::new();
    let mut session: Option<Session> = None;
    let (mut room, mut number, mut offset) = (0, 0, 0);
    while offset < recording.len() {
        let (kind, body) = record(recording, offset)?;
        offset += 4 + body.len();
        match kind {
            NEW_CASE => {
                text += &session.map_or(String::new(), |session| session.text());
                text += &format!("case {}\n", std::str::from_utf8(body).ok()?);
                (session, room, number) = (Some(open_on(terminal)), REPLAY_ROOM, 0);
            }
            PRINTER_ROOM => room = u32::from_le_bytes(body.try_into().ok()?) as usize,
            KEY_TEXT | OPENING => {
                number += 1;
                let (eight, words) = body.split_first_chunk()?;
                let given = u64::from_le_bytes(*eight) as usize;
                let kind = if kind == OPENING { Kind::Opening(given) } else { Kind::KeyText(given) };
                let (answer, _) = call_on(terminal, session.as_mut()?, kind, words, room);
                text += &short_answer(number, answer.number);
            }
            _ => {
                let kind = counting(kind, body)?;
                number += 1;
                let (answer, record) = call_on(terminal, session.as_mut()?, kind, body, room);
                text += &match kind {
                    Kind::Pack => pack_answer(number, &answer, record),
                    _ => numbered_answer(number, &answer),
                };
            }
        }
    }
    Some(text + &session.map_or(String::new(), |session| session.text()))
}

/// A call whose answer counts; none of another kind or body.
fn counting(kind: u16, body: &[u8]) -> Option<Kind> {
    match kind {
        MESSAGE => Some(Kind::Message),
        SHORT => Some(Kind::Short),
        PIECE => Some(Kind::Piece),
        CLOSING if body.is_empty() => Some(Kind::Closing),
        PACK => Some(Kind::Pack),
        _ => None,
    }
}

fn open_on(terminal: &mut dyn Terminal) -> Session {
    let mut session = Session::open();
    let Session { cells, layer, shown, dots, .. } = &mut session;
    // the opening under test has to write every byte itself
    for store in [&mut *cells, &mut *layer, &mut *shown, &mut *dots] {
        store.fill(1);
    }
    session.settings = terminal.opening(1, cells, layer, shown, dots).0;
    session
}

fn call_on(
    terminal: &mut dyn Terminal,
    session: &mut Session,
    kind: Kind,
    bytes: &[u8],
    room: usize,
) -> (Answer, u32) {
    let mut printer = vec![0; room];
    let Session { settings, cells, layer, shown, dots, printed, .. } = session;
    let mut record = 0;
    let (after, answer) = match kind {
        Kind::Message => terminal.message(*settings, bytes, cells, layer, shown, dots, &mut printer),
        Kind::Short => terminal.message_short(*settings, bytes, cells, layer, shown, dots, &mut printer),
        Kind::Piece => terminal.piece(*settings, bytes, cells, layer, shown, dots, &mut printer),
        Kind::Closing => terminal.closing(*settings, cells, layer, shown, dots),
        Kind::Pack => {
            let served = terminal.pack(*settings, bytes, cells, layer, shown, dots, &mut printer);
            record = served.2;
            (served.0, served.1)
        }
        Kind::KeyText(number) => terminal.key_text(*settings, number, bytes),
        Kind::Opening(rule) => {
            let (settings, number) = terminal.opening(rule, cells, layer, shown, dots);
            (settings, Answer { number, ..Answer::default() })
        }
    };
    *settings = after;
    printed.extend_from_slice(terminal.printed(&printer, answer.printed));
    (answer, record)
}
