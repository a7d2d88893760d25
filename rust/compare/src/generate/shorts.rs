//! Short messages: mostly 1 to 20 bytes of what a scale sends, so that little is
//! painted; now and then a single sequence, a window that comes back, or any message.

use super::late::at_the_end;
use super::messages::{self, Belief};
use super::sequences::{sequence, SECONDS};
use super::settings::inside;
use crate::random::Random;
use reference::Settings;

pub fn message(random: &mut Random, settings: &Settings) -> Vec<u8> {
    let mut belief = Belief::of(settings);
    let mut bytes = Vec::new();
    match random.below(20) {
        0 => {}
        1..=3 => return messages::message(random, settings),
        4..=6 => {
            quiet(random, settings, &mut bytes);
            let second = random.pick(&SECONDS);
            sequence(random, &mut belief, second, &mut bytes);
        }
        7..=8 => there_and_back(random, settings, &mut bytes),
        9 => at_the_end(random, &mut belief, &mut bytes),
        10 if random.one_in(8) => {
            let length = random.pick(&[4095, 4096, 4096, 4097, 4097, 5000, 100, 700]);
            bytes.resize_with(length, || random.byte() | 32);
        }
        11 => {
            let letter = random.byte() | 32;
            bytes.push(random.pick(&[8, 10, 12, 13, letter]));
        }
        _ => (0..random.between(1, 4)).for_each(|_| quiet(random, settings, &mut bytes)),
    }
    if random.one_in(8) {
        quiet(random, settings, &mut bytes);
    }
    bytes
}

/// A few bytes that mostly leave all places but those of printed cells.
fn quiet(random: &mut Random, settings: &Settings, bytes: &mut Vec<u8>) {
    match random.below(12) {
        0..=4 => (0..random.between(1, 6)).for_each(|_| bytes.push(b'0' + random.below(10) as u8)),
        5..=6 => (0..random.between(1, 3)).for_each(|_| bytes.push(random.pick(&[8, 10, 13]))),
        7 => bytes.extend([27, 37, random.byte()]),
        8 => into_the_window(random, settings, bytes),
        9 => (0..random.between(1, 5)).for_each(|_| bytes.push(random.byte() | 32)),
        10 => {
            bytes.extend(random.pick(&[&[7][..], &[0, 31], &[27, 50], &[27, 51], &[27, 80], &[27, 148, 1]]))
        }
        _ => bytes.extend(random.pick(&[
            &[27, 27][..],
            &[27, 209, 2],
            &[27, 211, 9],
            &[27, 210, 9, 1, 65],
            &[27, 208, 9],
            &[27, 144, 0, 0],
            &[27, 61, 31, 32],
        ])),
    }
}

/// The cursor onto a line that the window shows at first, near its ends and the
/// screen's edges more often.
fn into_the_window(random: &mut Random, settings: &Settings, bytes: &mut Vec<u8>) {
    let screen = usize::from(settings.selected);
    let top = usize::from(settings.places[screen].top);
    let line = inside(random, top, top + settings.height() - 1);
    let column = inside(random, 1, settings.columns(screen));
    bytes.extend([27, 61, 31 + line, 31 + column, random.byte() | 32, random.byte() | 32]);
}

/// The window leaves its place and is there again at the end: from above it by line
/// steps, else by two cursor placings.
fn there_and_back(random: &mut Random, settings: &Settings, bytes: &mut Vec<u8>) {
    let (screen, height) = (usize::from(settings.selected), settings.height());
    let place = settings.places[screen];
    let (line, top) = (usize::from(place.line), usize::from(place.top));
    if line < top {
        bytes.push(random.pick(&[8, 13]));
        bytes.extend(vec![10; top + height - 1 - line]);
        return;
    }
    let lines = settings.lines(screen);
    let far = if top > lines / 2 { 1 } else { lines };
    for line in [far, top + height / 2] {
        bytes.extend([27, 61, 31 + line as u8, 32]);
        if random.one_in(2) {
            bytes.push(random.byte() | 32);
        }
    }
}
