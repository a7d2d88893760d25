//! "reading them gives that sequence back": each sequence that was written is read
//! alone, under the settings given, by the message call under test, and leaves what
//! the reference's leaves of the named bytes; all of them in one message are cut into
//! as many sequences as were written.

use super::{List, Reached};
use crate::generate::{fill_stores, SIZES};
use crate::random::Random;
use crate::Terminal;
use reference::{Answer, Settings};

/// Room for a copy in every mode.
const ROOM: usize = 3840;

/// What a message leaves.
#[derive(PartialEq)]
struct Left {
    settings: Settings,
    answer: Answer,
    stores: [Vec<u8>; 4],
    printer: Vec<u8>,
}

/// `answers` are the places before, and what the calls gave back.
pub fn read_back(
    reader: &mut dyn Terminal,
    list: &List,
    answers: &[(usize, Reached)],
    buffer: &[u8],
    random: &mut Random,
) -> Result<(), String> {
    let calls = list.sequences.iter().zip(answers);
    let written: Vec<_> = calls.filter(|(_, (_, answer))| answer.1 == 0).collect();
    // waiting bytes aside
    let settings = Settings { held: 0, waiting: [0; 12], ..list.settings };
    let mut stores = SIZES.map(|size| vec![0; size]);
    let [cells, layer, shown, dots] = &mut stores;
    fill_stores(random, cells, layer, shown, dots);
    for &((second, parameters), (start, (end, ..))) in &written {
        let bytes = &buffer[*start..*end];
        let left = read(reader, settings, bytes, &stores);
        let sent = if *second == 209 && parameters.is_empty() { &[0] } else { &parameters[..] };
        let named = read(&mut { crate::REFERENCE }, settings, &[&[27, *second], sent].concat(), &stores);
        let Answer { number, taken, accepted, refused, .. } = left.answer;
        let one = (number, taken as usize, accepted, refused) == (0, bytes.len(), 1, 0);
        if !one || left != named {
            return Err(format!("27 {second} {parameters:?}: {bytes:?} is not read back: {:?}", left.answer));
        }
    }
    together(reader, settings, &written.iter().map(|(_, (at, to))| (*at, to.0)).collect::<Vec<_>>(), buffer)
}

/// All that was written, in one message.
fn together(
    reader: &mut dyn Terminal,
    settings: Settings,
    parts: &[(usize, usize)],
    buffer: &[u8],
) -> Result<(), String> {
    let (Some(&(start, _)), Some(&(_, end))) = (parts.first(), parts.last()) else { return Ok(()) };
    let bytes = &buffer[start..end];
    let left = read(reader, settings, bytes, &SIZES.map(|size| vec![32; size]));
    let Answer { number, taken, accepted, refused, first, .. } = left.answer;
    let cut = (accepted + refused) as usize == parts.len() && [0, 11, 13].contains(&first);
    if number != 0 || taken as usize != bytes.len() || !cut {
        return Err(format!("{} sequences are not cut so: {bytes:?}: {:?}", parts.len(), left.answer));
    }
    Ok(())
}

fn read(reader: &mut dyn Terminal, settings: Settings, bytes: &[u8], stores: &[Vec<u8>; 4]) -> Left {
    let (mut stores, mut printer) = (stores.clone(), vec![0; ROOM]);
    let [cells, layer, shown, dots] = &mut stores;
    let (settings, answer) = reader.message(settings, bytes, cells, layer, shown, dots, &mut printer);
    Left { settings, answer, stores, printer }
}
