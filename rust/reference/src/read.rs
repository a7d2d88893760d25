//! Reading a message: "An item is a printed byte, a control code, a sequence
//! or a refusal, and every byte of the message belongs to exactly one item."

use super::dots::{self, LAST_HORIZONTAL, LAST_VERTICAL};
use super::picture::copy_size;
use super::settings::{Settings, CHARSETS, SHIFTS};

pub const ESC: u8 = 27;

#[derive(Clone, Copy, Debug, PartialEq, Eq)]
pub enum Item<'a> {
    Printed(u8),
    Code(u8),
    /// An accepted sequence: the byte after ESC, and what follows it.
    Sequence {
        second: u8,
        parameters: &'a [u8],
    },
    /// A refused sequence: its number, 10 to 13, and its first bad parameter,
    /// counted from 1 after the second byte; "for all other numbers it is 0".
    Refusal {
        number: u8,
        parameter: u8,
    },
}

/// A refusal that names no parameter.
pub fn refusal<'a>(number: u8) -> Item<'a> {
    Item::Refusal { number, parameter: 0 }
}

/// The first item of `rest` (which is not empty) and its bytes. `room` is
/// the printer room left in this call.
pub fn read<'a>(rest: &'a [u8], settings: &Settings, room: usize) -> (Item<'a>, usize) {
    match rest[0] {
        ESC => read_sequence(rest, settings, room),
        byte => (alone(byte), 1),
    }
}

/// A byte that is an item by itself: all but ESC.
pub fn alone<'a>(byte: u8) -> Item<'a> {
    match byte {
        32..=255 => Item::Printed(byte),
        code => Item::Code(code),
    }
}

/// "Sequences are checked 10, 12, 14, 11, 13", and "14 ends".
fn read_sequence<'a>(rest: &'a [u8], settings: &Settings, room: usize) -> (Item<'a>, usize) {
    if rest.len() == 1 {
        return (refusal(12), 1);
    }
    let second = rest[1];
    // no byte behind one that is not in the list belongs to it
    let length = length(second, rest.get(2).copied()).unwrap_or(2);
    // "At the very end of a message, 27, 209 means n = 0."
    if second == 209 && rest.len() == 2 {
        return (Item::Sequence { second, parameters: &[0] }, 2);
    }
    if rest.len() < length {
        return (refusal(12), rest.len());
    }
    let parameters = &rest[2..length];
    (judged(second, parameters, settings, room), length)
}

/// What a sequence is whose bytes are all there, so that 12 is settled.
pub fn judged<'a>(second: u8, parameters: &'a [u8], settings: &Settings, room: usize) -> Item<'a> {
    if length(second, None).is_none() {
        return refusal(10);
    }
    if let Some(parameter) = first_bad(second, parameters, settings) {
        return Item::Refusal { number: 11, parameter };
    }
    if second == 80 && room < copy_size(settings) {
        return refusal(13);
    }
    Item::Sequence { second, parameters }
}

/// "Lengths with ESC, by second byte"; none if the byte is not in the list.
/// 208's length hangs on its mode byte; without one it is at least 3.
pub fn length(second: u8, mode: Option<u8>) -> Option<usize> {
    match second {
        42 | 50 | 51 | 80 | 84 | 89 | 123 | 125 | 150 | 151 => Some(2),
        160..=165 | 176 | 177 | 212 | 213 | 215 | 246 => Some(2),
        37 | 67 | 148 | 149 | 209 | 211 | 214 | 240 | 241 | 242 | 247 => Some(3),
        61 | 144 | 145 => Some(4),
        210 => Some(5),
        199 | 243 | 244 | 245 => Some(6),
        224 => Some(11),
        198 => Some(13),
        208 => match mode {
            Some(0) => Some(5),
            Some(1) => Some(4),
            Some(2) => Some(6),
            _ => Some(3),
        },
        _ => None,
    }
}

/// "In mode 3, .. 148 to 151, 209 and 211 to 215 do nothing, parameters carried
/// but not judged".
pub fn idle(second: u8, settings: &Settings) -> bool {
    settings.mode == 3 && matches!(second, 148..=151 | 209 | 211..=215)
}

/// The first parameter that is out of its range on the selected screen,
/// counted from 1 after the second byte; none if all are good.
fn first_bad(second: u8, parameters: &[u8], settings: &Settings) -> Option<u8> {
    if idle(second, settings) {
        return None;
    }
    let screen = usize::from(settings.selected);
    let lines = settings.lines(screen);
    let number = |at: usize| usize::from(parameters[at]);
    match second {
        // "bytes m+31, n+31; m 1 to R, n 1 to columns"
        61 => named(&[
            (32..=lines + 31).contains(&number(0)),
            (32..=settings.columns(screen) + 31).contains(&number(1)),
        ]),
        67 => named(&[CHARSETS.contains(&parameters[0])]),
        // "a 0 to R−1, m 1 to R, a+m at most R"
        144 | 145 => {
            let sum = number(0) + number(1) <= lines;
            named(&[number(0) < lines, (1..=lines).contains(&number(1)) && sum])
        }
        148 => named(&[(1..=settings.height()).contains(&number(0))]),
        149 | 209 | 211 | 240 => named(&[number(0) <= 1]),
        198 if settings.mode == 3 => first_bad_of_line(parameters),
        199 if settings.mode == 3 => {
            let horizontal = dots::number(parameters, 2) <= LAST_HORIZONTAL;
            named(&[number(0) <= 1, number(1) <= LAST_VERTICAL, true, horizontal])
        }
        208 => first_bad_of_mode(parameters),
        210 => named(&[(1..=8).contains(&number(0)), (1..=80).contains(&number(1))]),
        214 => named(&[number(0) <= 3]),
        224 => named(&[(224..=254).contains(&number(0))]),
        241 | 242 => named(&[(1..=127).contains(&number(0))]),
        247 => named(&[SHIFTS.contains(&parameters[0])]),
        // no parameters, or "not judged", or 0 to 255
        _ => None,
    }
}

/// 198: "same ranges, function 1 to 3", and "a two-byte number named by its low
/// byte".
fn first_bad_of_line(parameters: &[u8]) -> Option<u8> {
    let horizontal = |at: usize| dots::number(parameters, at) <= LAST_HORIZONTAL;
    let vertical = |at: usize| dots::number(parameters, at) <= LAST_VERTICAL;
    let function = (1..=3).contains(&parameters[10]);
    let (start, end) = ((horizontal(0), vertical(2)), (horizontal(4), vertical(6)));
    named(&[true, start.0, true, start.1, true, end.0, true, end.1, true, true, function])
}

/// The table of modes, for the bytes after 27, 208: the mode byte is the
/// first parameter.
fn first_bad_of_mode(parameters: &[u8]) -> Option<u8> {
    let number = |at: usize| usize::from(parameters[at]);
    match parameters[0] {
        0 => {
            let total = number(1) + number(2) <= 48;
            named(&[true, number(1) >= 8, number(2) >= 8 && total])
        }
        1 => named(&[true, (16..=48).contains(&number(1))]),
        2 => named(&[true, (8..=48).contains(&number(1)), (1..=78).contains(&number(2))]),
        3 => None,
        _ => named(&[false]),
    }
}

/// The number of the first parameter that is not good. "Where only the sum
/// of two fails (208 mode 0, 144, 145) it is the later one", so a sum is
/// judged together with the later one.
fn named(good: &[bool]) -> Option<u8> {
    let at = good.iter().position(|&good| !good)?;
    Some(at as u8 + 1)
}
