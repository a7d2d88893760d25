//! The opening call, the message call, the stream's two calls, the key text
//! call and the printer call.

use super::apply::Standing;
use super::picture::paint;
use super::read::{read, Item};
use super::settings::{Answer, Settings};
use super::settings::{BLANK, CELLS, DOTS, KEYS, KEY_TEXT, LAYER, OPENING, SHOWN};
use super::settings::{LONGEST_MESSAGE, LONGEST_STREAM};
use super::sound::sound;
use super::stream::Line;

/// "It blanks (32) all cells and the shown screen, and zeroes the layer", clears
/// the dots, and "takes the rule". A refused opening alters no store and returns
/// the opening settings: "another rule number is 23, after 1; a refused opening
/// returns rule 1".
pub fn opening(
    rule: usize,
    cells: &mut [u8],
    layer: &mut [u8],
    shown: &mut [u8],
    dots: &mut [u8],
) -> (Settings, u8) {
    if !sizes_right(cells, layer, shown, dots) {
        return (OPENING, 1);
    }
    if rule != 1 && rule != 2 {
        return (OPENING, 23);
    }
    cells.fill(BLANK);
    layer.fill(0);
    shown.fill(BLANK);
    dots.fill(0);
    (Settings { rule: rule as u8, ..OPENING }, 0)
}

/// "Calls are checked in the order 1, 2, 3", then "16, a whole message while
/// bytes wait". A refused call returns the settings given, zero counts and
/// its number, with every store unaltered.
pub fn message(
    settings: Settings,
    message: &[u8],
    cells: &mut [u8],
    layer: &mut [u8],
    shown: &mut [u8],
    dots: &mut [u8],
    printer: &mut [u8],
) -> (Settings, Answer) {
    if let Some(number) = refused(&settings, message, cells, layer, shown, dots) {
        return (settings, Answer { number, ..Answer::default() });
    }
    if settings.held > 0 {
        return (settings, Answer { number: 16, ..Answer::default() });
    }
    uncut(settings, message, cells, layer, shown, dots, printer)
}

/// One reading of bytes that nothing follows, however many they are; the
/// stream's count stays.
pub fn uncut(
    settings: Settings,
    bytes: &[u8],
    cells: &mut [u8],
    layer: &mut [u8],
    shown: &mut [u8],
    dots: &mut [u8],
    printer: &mut [u8],
) -> (Settings, Answer) {
    let mut standing = Standing { settings, cells, layer, dots, printer, printed: 0 };
    let mut answer = serve(&mut standing, bytes);
    answer.taken = bytes.len() as u32;
    paint(&standing.settings, standing.cells, standing.layer, shown);
    (standing.settings, answer)
}

/// "a call for a piece (up to 4,096 bytes)": byte after byte, from the
/// sequence that waits on. "A piece takes all its bytes".
pub fn piece(
    settings: Settings,
    piece: &[u8],
    cells: &mut [u8],
    layer: &mut [u8],
    shown: &mut [u8],
    dots: &mut [u8],
    printer: &mut [u8],
) -> (Settings, Answer) {
    if let Some(number) = refused(&settings, piece, cells, layer, shown, dots) {
        return (settings, Answer { number, ..Answer::default() });
    }
    // "15, the piece would take the count past its limit"
    if settings.count as usize + piece.len() > LONGEST_STREAM {
        return (settings, Answer { number: 15, ..Answer::default() });
    }
    let mut standing = Standing { settings, cells, layer, dots, printer, printed: 0 };
    let mut answer = Answer { taken: piece.len() as u32, ..Answer::default() };
    let mut line = Line::of(&settings);
    for &byte in piece {
        let room = standing.room();
        if let Some((item, offset)) = line.take(byte, &standing.settings, room) {
            obey(&mut standing, &mut answer, &item, offset);
        }
    }
    line.leave(&mut standing.settings);
    paint(&standing.settings, standing.cells, standing.layer, shown);
    (standing.settings, answer)
}

/// "and one to close": 27, 209 then means 0, "Closing on another unfinished
/// sequence gives 12". It takes no byte, "paints too, then forgets the bytes
/// and the count".
pub fn closing(
    settings: Settings,
    cells: &mut [u8],
    layer: &mut [u8],
    shown: &mut [u8],
    dots: &mut [u8],
) -> (Settings, Answer) {
    if let Some(number) = refused(&settings, &[], cells, layer, shown, dots) {
        return (settings, Answer { number, ..Answer::default() });
    }
    let mut standing = Standing { settings, cells, layer, dots, printer: &mut [], printed: 0 };
    let mut answer = Answer::default();
    if let Some((item, offset)) = Line::of(&settings).close() {
        obey(&mut standing, &mut answer, &item, offset);
    }
    Line::of(&OPENING).leave(&mut standing.settings);
    paint(&standing.settings, standing.cells, standing.layer, shown);
    (standing.settings, answer)
}

/// "ten key texts of 8 codes, set by a new call (seen from the next message
/// on)": it has no store, and so paints nothing. "a key number outside 1 to 10
/// or a text not of 8 bytes is 17, after 3, nothing changed".
pub fn key_text(settings: Settings, number: usize, text: &[u8]) -> (Settings, Answer) {
    let refused = |number: u8| (settings, Answer { number, ..Answer::default() });
    if !sound(&settings) {
        return refused(3);
    }
    if !(1..=KEYS).contains(&number) || text.len() != KEY_TEXT {
        return refused(17);
    }
    let mut after = settings;
    let start = KEY_TEXT * (number - 1);
    after.texts[start..start + KEY_TEXT].copy_from_slice(text);
    (after, Answer::default())
}

/// The numbers that all these calls have in common, in the order 1, 2, 3.
pub fn refused(
    settings: &Settings,
    message: &[u8],
    cells: &[u8],
    layer: &[u8],
    shown: &[u8],
    dots: &[u8],
) -> Option<u8> {
    if !sizes_right(cells, layer, shown, dots) {
        return Some(1);
    }
    if message.len() > LONGEST_MESSAGE {
        return Some(2);
    }
    if !sound(settings) {
        return Some(3);
    }
    None
}

/// "hands back that first part of the buffer itself; a count beyond the
/// buffer gives the empty part"
pub fn printed(buffer: &[u8], count: usize) -> &[u8] {
    if count > buffer.len() {
        return &buffer[..0];
    }
    &buffer[..count]
}

/// "1 covers the dot store".
pub fn sizes_right(cells: &[u8], layer: &[u8], shown: &[u8], dots: &[u8]) -> bool {
    cells.len() == CELLS && layer.len() == LAYER && shown.len() == SHOWN && dots.len() == DOTS
}

/// Reads the bytes item by item; each item is read with the settings that
/// stand when its turn comes.
fn serve(standing: &mut Standing, bytes: &[u8]) -> Answer {
    let mut answer = Answer::default();
    let mut offset = 0;
    while offset < bytes.len() {
        let rest = &bytes[offset..];
        let (item, length) = read(rest, &standing.settings, standing.room());
        obey(standing, &mut answer, &item, offset);
        offset += length;
    }
    answer
}

/// Lets an item act, and adds it to the answer.
pub fn obey(standing: &mut Standing, answer: &mut Answer, item: &Item, offset: usize) {
    standing.apply(item);
    answer.printed = standing.printed;
    count(answer, item, offset);
}

fn count(answer: &mut Answer, item: &Item, offset: usize) {
    match *item {
        Item::Sequence { .. } => answer.accepted += 1,
        Item::Refusal { number, parameter } => {
            answer.refused += 1;
            if answer.first == 0 {
                answer.first = number;
                answer.offset = offset as u32;
                answer.parameter = parameter;
            }
        }
        Item::Printed(_) | Item::Code(_) => {}
    }
}
