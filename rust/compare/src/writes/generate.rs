//! Random sequences for a writer, and the buffers that they are written to.

use super::{List, Sequence};
use crate::generate::sequences::{sequence, SECONDS};
use crate::generate::{settings, unsound, Belief};
use crate::random::Random;
use reference::Settings;

pub fn list(random: &mut Random) -> List {
    let sound = settings(random);
    let sequences: Vec<Sequence> = (0..random.between(1, 6)).map(|_| one(random, &sound)).collect();
    let whole: usize = sequences.iter().map(|(_, parameters)| 2 + parameters.len()).sum();
    let place = random.pick(&[0, 0, 0, 1, 5]);
    let length = length(random, place, whole, sequences[0].1.len() + 2);
    let mut buffer = vec![0; length];
    random.fill(&mut buffer);
    let place = if random.one_in(20) { far(random, length) } else { place };
    let settings = if random.one_in(12) { unsound(random, &sound).1 } else { sound };
    List { settings, sequences, buffer, place }
}

/// A sequence by the settings; one in eight is none of the list.
fn one(random: &mut Random, settings: &Settings) -> Sequence {
    let second = random.pick(&SECONDS);
    let mut bytes = Vec::new();
    // each by the settings given, and not by what those before would set
    sequence(random, &mut Belief::of(settings), second, &mut bytes);
    let mut parameters = bytes.split_off(2);
    if random.one_in(8) {
        return spoilt(random, second, parameters);
    }
    if second == 37 && random.one_in(3) {
        parameters = vec![27];
    }
    (second, parameters)
}

/// Too few or too many parameters, or a second byte that is not in the list.
fn spoilt(random: &mut Random, second: u8, mut parameters: Vec<u8>) -> Sequence {
    let any = random.byte();
    match random.below(8) {
        0 | 1 => drop(parameters.pop()),
        2 => parameters.clear(),
        3 | 4 => parameters.push(any),
        5 => parameters.resize(random.between(10, 14), any),
        6 => return (209, Vec::new()),
        _ => return (random.pick(&[0, 27, 36, 60, 81, 166, 200, 207, 216, 248, 255]), parameters),
    }
    (second, parameters)
}

/// Just enough for all, a little less or more, or for the first alone.
fn length(random: &mut Random, place: usize, whole: usize, first: usize) -> usize {
    let any = random.below(30);
    let all = place + whole;
    random.pick(&[all, all, all + 1, all + 9, all - 1, place + first, place + first - 1, any, 64, 0])
}

/// A place from the buffer's end on.
fn far(random: &mut Random, length: usize) -> usize {
    let below = length.saturating_sub(random.below(4));
    random.pick(&[
        below,
        length,
        length + 1,
        length + 100,
        usize::MAX,
        usize::MAX - 1,
        usize::MAX - 12,
        1 << 32,
    ])
}
