//! Document 02, P13: the codes that held keys send, worked out from a trace
//! by letting the clock run tick by tick; and the words of `repeats`.

use super::records;
use super::settings::Settings;
use super::sound::sound;
use std::fmt::Write;

pub const LONGEST_TRACE: usize = 60_000;
/// A code sent: its tick, four bytes, little-endian, and its key.
pub const CODE: usize = 5;
/// The output that the program `repeats` has.
pub const PROGRAM_OUTPUT: usize = 65_535;

const PRESS: u16 = 1;
const RELEASE: u16 = 2;

/// A record of the trace.
struct Record {
    press: bool,
    tick: u32,
    key: u8,
}

/// "list the codes sent, in order, and return their number": the call's
/// number first. A refused call counts none and leaves the output.
pub fn key_repeats(settings: Settings, trace: &[u8], output: &mut [u8]) -> (u8, usize) {
    let found = records(&settings, trace).and_then(|records| {
        // "25 output too small"
        sent(&settings, &records, output.len() / CODE).ok_or(25)
    });
    match found {
        Ok(codes) => {
            for (place, (tick, key)) in output.chunks_exact_mut(CODE).zip(&codes) {
                place[..4].copy_from_slice(&tick.to_le_bytes());
                place[4] = *key;
            }
            (0, codes.len())
        }
        Err(number) => (number, 0),
    }
}

/// The records of a good trace, else its number: "in order over the whole
/// trace: 3, 19, 20, 21 (kind or body length), 24 falling tick".
fn records(settings: &Settings, trace: &[u8]) -> Result<Vec<Record>, u8> {
    if !sound(settings) {
        return Err(3);
    }
    if trace.len() > LONGEST_TRACE {
        return Err(19);
    }
    let bodies = records::records(trace).ok_or(20)?;
    let mut records = Vec::new();
    for (kind, body) in bodies {
        let (PRESS | RELEASE, &[a, b, c, d, key]) = (kind, body) else { return Err(21) };
        records.push(Record { press: kind == PRESS, tick: u32::from_le_bytes([a, b, c, d]), key });
    }
    if records.windows(2).any(|pair| pair[1].tick < pair[0].tick) {
        return Err(24);
    }
    Ok(records)
}

/// The keyboard at a tick: the key that repeats and the ticks until it is
/// due, and what was sent so far.
struct Keyboard<'a> {
    settings: &'a Settings,
    held: Option<(u8, u32)>,
    codes: Vec<(u32, u8)>,
}

impl Keyboard<'_> {
    /// "A press sends its key at its tick, then, with repeat on, at 4 times
    /// the 241 number later". It is ended by "its release, any next press";
    /// "Other releases do nothing".
    fn take(&mut self, record: &Record) {
        let Record { press, tick, key } = *record;
        let held_key = self.held.map(|(key, _)| key);
        if press {
            self.codes.push((tick, key));
            let due = 4 * u32::from(self.settings.keys.delay);
            self.held = (self.settings.keys.repeat == 1).then_some((key, due));
        } else if held_key == Some(key) {
            self.held = None;
        }
    }

    /// ".. and every 242 number after": the held key, if it is due.
    fn repeat(&mut self, now: u32) {
        if let Some((key, 0)) = self.held {
            self.codes.push((now, key));
            self.held = Some((key, u32::from(self.settings.keys.interval)));
        }
    }

    /// The tick after `now` at which something can happen; while no key
    /// repeats that is the next record's.
    fn wait(&mut self, now: u32, next: &Record) -> u32 {
        match &mut self.held {
            Some((_, due)) => {
                *due -= 1;
                now + 1
            }
            None => next.tick,
        }
    }
}

/// The codes sent, or none if they are more than `most`.
fn sent(settings: &Settings, records: &[Record], most: usize) -> Option<Vec<(u32, u8)>> {
    let mut keyboard = Keyboard { settings, held: None, codes: Vec::new() };
    let mut now = records.first().map_or(0, |record| record.tick);
    let mut next = 0;
    loop {
        // the records of this tick come first: what they end is ended
        while next < records.len() && records[next].tick == now {
            keyboard.take(&records[next]);
            next += 1;
        }
        if keyboard.codes.len() > most {
            return None;
        }
        // ".. or the trace's last record"
        if next == records.len() {
            return Some(keyboard.codes);
        }
        keyboard.repeat(now);
        now = keyboard.wait(now, &records[next]);
    }
}

/// Program "repeats": the answer, then a line a code.
pub fn text(settings: Settings, trace: &[u8]) -> String {
    let mut output = vec![0; PROGRAM_OUTPUT];
    let (number, count) = key_repeats(settings, trace, &mut output);
    let mut text = format!("answer {number} codes {count}\n");
    for code in output.chunks_exact(CODE).take(count) {
        let tick = u32::from_le_bytes([code[0], code[1], code[2], code[3]]);
        writeln!(text, "{tick} {}", code[4]).unwrap();
    }
    text
}
