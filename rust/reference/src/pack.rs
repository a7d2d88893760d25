//! Document 02, P6: a morning's messages in one call.

use super::calls::{message, sizes_right};
use super::records::records;
use super::settings::{Answer, Settings, LONGEST_MESSAGE};
use super::sound::sound;

/// "a pack up to 60,000 bytes"
pub const LONGEST_PACK: usize = 60_000;
/// "Kind 1 is a message."
pub const MESSAGE: u16 = 1;

/// "One call on a pack .. must equal its messages sent one by one, the printer
/// bytes of each following those before, each having the room left over." Behind
/// settings and answer stands the record of the first refusal, from 1, or 0.
pub fn pack(
    settings: Settings,
    pack: &[u8],
    cells: &mut [u8],
    layer: &mut [u8],
    shown: &mut [u8],
    dots: &mut [u8],
    printer: &mut [u8],
) -> (Settings, Answer, u32) {
    // "Refusals, after 1"
    let right = sizes_right(cells, layer, shown, dots);
    let bodies = match if right { bodies(&settings, pack) } else { Err(1) } {
        Ok(bodies) => bodies,
        Err(number) => return (settings, Answer { number, ..Answer::default() }, 0),
    };
    let mut total = Total { settings, answer: Answer::default(), record: 0 };
    for (number, body) in (1..).zip(bodies) {
        let room = &mut printer[total.answer.printed..];
        let served = message(total.settings, body, cells, layer, shown, dots, room);
        total.add(number, served);
    }
    (total.settings, total.answer, total.record)
}

/// The bodies of a pack that is served, or else its number: "19 too long, 20 cut
/// record, 21 unknown kind, then 2 and 3, with 16 from P1 after 3". "The whole pack
/// is checked for each number before the next."
fn bodies<'a>(settings: &Settings, pack: &'a [u8]) -> Result<Vec<&'a [u8]>, u8> {
    if pack.len() > LONGEST_PACK {
        return Err(19);
    }
    let records = records(pack).ok_or(20)?;
    if records.iter().any(|&(kind, _)| kind != MESSAGE) {
        return Err(21);
    }
    if records.iter().any(|(_, body)| body.len() > LONGEST_MESSAGE) {
        return Err(2);
    }
    if !sound(settings) {
        return Err(3);
    }
    if settings.held > 0 {
        return Err(16);
    }
    Ok(records.into_iter().map(|(_, body)| body).collect())
}

/// "It gives summed counts and the first refusal with its record (from 1; 0 if
/// none) and its offset in that body."
struct Total {
    settings: Settings,
    answer: Answer,
    record: u32,
}

impl Total {
    fn add(&mut self, number: u32, (settings, answer): (Settings, Answer)) {
        self.settings = settings;
        let total = &mut self.answer;
        total.taken += answer.taken;
        total.accepted += answer.accepted;
        total.refused += answer.refused;
        total.printed += answer.printed;
        if total.first == 0 && answer.first != 0 {
            total.first = answer.first;
            total.offset = answer.offset;
            total.parameter = answer.parameter;
            self.record = number;
        }
    }
}
