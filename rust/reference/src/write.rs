//! Document 02, P7: the sequences written. A sequence is given by its second
//! byte and its parameters as sent.

use super::picture::copy_size;
use super::read::{read, Item, ESC};
use super::settings::Settings;
use super::sound::sound;

/// "From a named sequence and its parameters (bytes as sent), write its bytes and
/// no other": into the buffer, from the place on. Given back are the place behind
/// them, the number, and the first bad parameter. "buffer and place stay" where it
/// is refused.
pub fn write(
    settings: Settings,
    second: u8,
    parameters: &[u8],
    buffer: &mut [u8],
    place: usize,
) -> (usize, u8, u8) {
    let bytes = match spelled(&settings, second, parameters) {
        Ok(bytes) => bytes,
        Err((number, parameter)) => return (place, number, parameter),
    };
    // "22, no space (or a place past the buffer), last"
    let space = buffer.get_mut(place..).unwrap_or(&mut []);
    if bytes.len() > space.len() {
        return (place, 22, 0);
    }
    space[..bytes.len()].copy_from_slice(&bytes);
    (place + bytes.len(), 0, 0)
}

/// The bytes of a sequence, or its number and bad parameter: "3 first", then
/// "exactly if the reader under the settings given, waiting bytes aside, would
/// refuse it with room for a copy, under the reader's number".
fn spelled(settings: &Settings, second: u8, parameters: &[u8]) -> Result<Vec<u8>, (u8, u8)> {
    if !sound(settings) {
        return Err((3, 0));
    }
    let given = [&[ESC, second], parameters].concat();
    let (item, length) = read(&given, settings, copy_size(settings));
    // no sequence of the list goes on so far
    if length < given.len() {
        return Err((10, 0));
    }
    match item {
        // "209 is always written with its byte": the reader has given it one
        Item::Sequence { second, parameters } => Ok([&[ESC, second], parameters].concat()),
        Item::Refusal { number, parameter } => Err((number, parameter)),
        Item::Printed(_) | Item::Code(_) => unreachable!("ESC begins a sequence"),
    }
}
