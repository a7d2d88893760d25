//! Streams: what waits at a start, the pieces of a line, and streams that are
//! not sound.

use super::messages::{message, Belief};
use super::sequences::{sequence, SECONDS};
use super::Kind;
use crate::random::Random;
use reference::Settings;

const LIMIT: u32 = 1_000_000_000;

/// A message twice as often as a piece while nothing waits; else seldom.
pub fn kind(random: &mut Random, settings: &Settings) -> Kind {
    if settings.held == 0 {
        random.pick(&[Kind::Message, Kind::Message, Kind::Message, Kind::Piece, Kind::Piece, Kind::Closing])
    } else {
        random.pick(&[Kind::Message, Kind::Piece, Kind::Piece, Kind::Piece, Kind::Piece, Kind::Closing])
    }
}

/// The next piece of the line, which is written anew when it is at its end.
pub fn piece(random: &mut Random, settings: &Settings, line: &mut Vec<u8>) -> Vec<u8> {
    if line.is_empty() {
        *line = finish(random, settings);
        line.extend(message(random, settings));
        if random.one_in(60) {
            let length = random.pick(&[4096, 4097, 4098, 9000]);
            line.resize_with(length, || b'A' + random.below(26) as u8);
        }
    }
    let length = cut(random, line);
    line[..length].to_vec()
}

/// What may finish the sequence that waits, if one does.
fn finish(random: &mut Random, settings: &Settings) -> Vec<u8> {
    let held = usize::from(settings.held);
    if held == 0 || random.one_in(8) {
        return Vec::new();
    }
    let second = if held > 1 { settings.waiting[1] } else { random.pick(&SECONDS) };
    let mut whole = Vec::new();
    sequence(random, &mut Belief::of(settings), second, &mut whole);
    whole.split_off(held.min(whole.len()))
}

/// How much of the line a piece takes: nothing, all, a part, and most often
/// so much that it ends inside a sequence.
pub fn cut(random: &mut Random, line: &[u8]) -> usize {
    let escapes: Vec<usize> = (0..line.len()).filter(|&at| line[at] == 27).collect();
    match random.below(8) {
        0 => 0,
        1 | 2 => line.len(),
        3 => random.below(line.len() + 1),
        4 => line.len().min(random.between(1, 3)),
        _ if escapes.is_empty() => random.below(line.len() + 1),
        _ => {
            let any = random.between(1, 12);
            let inside = random.pick(&[1, 2, 2, 3, 4, 5, any]);
            line.len().min(random.pick(&escapes) + inside)
        }
    }
}

// ---- settings ----

/// A stream for sound settings: in a third of them some bytes wait.
pub fn with_stream(random: &mut Random, mut settings: Settings) -> Settings {
    if random.one_in(3) {
        let bytes = waiting(random, &settings);
        wait(&mut settings, &bytes);
    }
    let held = u32::from(settings.held);
    let few = random.below(5_000) as u32;
    settings.count = random.pick(&[held, held, held + few, LIMIT, LIMIT - few % 20, LIMIT - few]).max(held);
    settings
}

/// The start of a sequence.
fn waiting(random: &mut Random, settings: &Settings) -> Vec<u8> {
    let mut bytes = Vec::new();
    let any = random.pick(&SECONDS);
    let second = random.pick(&[198, 224, 208, 208, 209, any]);
    sequence(random, &mut Belief::of(settings), second, &mut bytes);
    if random.one_in(3) {
        random.fill(&mut bytes[2..]);
    }
    let whole = reference::read::length(second, bytes.get(2).copied()).unwrap();
    bytes.truncate(random.between(1, whole.max(2) - 1));
    bytes
}

fn wait(settings: &mut Settings, bytes: &[u8]) {
    settings.waiting = [0; 12];
    settings.waiting[..bytes.len()].copy_from_slice(bytes);
    settings.held = bytes.len() as u8;
    settings.count = settings.count.max(bytes.len() as u32);
}

/// The ways in which a stream is made unsound.
pub const STREAM_FAULTS: [&str; 9] = [
    "count past its limit",
    "waiting past the count",
    "held past 12",
    "held one more",
    "waiting without ESC",
    "waiting an unlisted byte",
    "waiting a whole sequence",
    "waiting a whole 208",
    "behind the waiting bytes",
];

/// It may stay sound by chance; then the call is served.
pub fn break_stream(random: &mut Random, fault: &str, settings: &mut Settings) {
    let mut other = random.byte();
    match fault {
        "count past its limit" => settings.count = random.pick(&[LIMIT + 1, LIMIT + 2, u32::MAX]),
        "waiting past the count" => {
            let bytes = waiting(random, settings);
            wait(settings, &bytes);
            settings.count = u32::from(settings.held) - 1;
        }
        "held past 12" => {
            wait(settings, &[27, 198, 1, 1, 1, 1, 1, 1, 1, 1, 1, 1]);
            settings.held = random.pick(&[13, 14, 255]);
            settings.count = random.pick(&[12, 13, 300]);
        }
        "held one more" => {
            settings.held += 1;
            settings.count = settings.count.max(settings.held.into());
        }
        "waiting without ESC" => {
            let bytes = [&[other], &waiting(random, settings)[1..]].concat();
            wait(settings, &bytes);
        }
        "waiting an unlisted byte" => {
            while SECONDS.contains(&other) {
                other = other.wrapping_add(1);
            }
            wait(settings, &[27, random.pick(&[other, 27])]);
        }
        "waiting a whole sequence" => {
            let whole: [&[u8]; 5] =
                [&[27, 80], &[27, 209, 0], &[27, 61, 32, 32], &[27, 243, 1, 2, 3, 4], &[27, 246]];
            wait(settings, random.pick(&whole));
        }
        "waiting a whole 208" => {
            let whole: [&[u8]; 5] =
                [&[27, 208, 3], &[27, 208, 4], &[27, 208, 0, 8, 8], &[27, 208, 1, 16], &[27, 208, 255]];
            wait(settings, random.pick(&whole));
        }
        _ => settings.waiting[random.between(usize::from(settings.held), 12).min(11)] |= other | 1,
    }
}
