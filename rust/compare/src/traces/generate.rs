//! Random traces, short in ticks so that a clock can run through them.

use super::write::{put, put_body, PRESS, RELEASE};
use super::Call;
use crate::generate::{settings, unsound};
use crate::random::Random;
use reference::Settings;

/// No code of a random trace is looked for beyond so many.
const MOST: usize = 2_000;

pub fn call(random: &mut Random) -> Call {
    let mut sound = settings(random);
    if random.one_in(4) {
        (sound.keys.delay, sound.keys.interval) = (random.pick(&[1, 2, 127]), random.pick(&[1, 3, 127]));
    }
    sound.keys.repeat = u8::from(!random.one_in(6));
    let mut trace = records(random, &sound);
    if random.one_in(60) {
        lengthen(random, &mut trace);
    }
    if random.one_in(10) && !trace.is_empty() {
        let keep = trace.len() - random.between(1, trace.len().min(12));
        trace.truncate(keep);
    }
    let length = room(random, &sound, &trace);
    let mut output = vec![0; length];
    random.fill(&mut output);
    let settings = if random.one_in(12) { unsound(random, &sound).1 } else { sound };
    Call { settings, trace, output }
}

/// A few presses and releases of three keys; some records are odd, some fall.
fn records(random: &mut Random, settings: &Settings) -> Vec<u8> {
    let mut trace = Vec::new();
    let start = random.below(5_000) as u32;
    let mut tick = random.pick(&[0, start, u32::MAX - start, u32::MAX - 5, 1 << 31]);
    let fault = random.below(25);
    for at in 0..random.below(12) {
        let kind = random.pick(&[PRESS, PRESS, PRESS, RELEASE, RELEASE]);
        let key = random.pick(&[0, 65, 65, 255]);
        if fault <= 2 && random.one_in(4) {
            odd(random, &mut trace, tick, key);
        } else {
            let falls = at > 0 && (fault == 3 || fault == 1) && random.one_in(4);
            let back = random.pick(&[1, 2, 300]);
            let shown = if falls { tick.saturating_sub(back) } else { tick };
            put(&mut trace, (kind, shown, key));
        }
        tick = tick.saturating_add(gap(random, settings));
    }
    trace
}

/// The ticks to the next record: none, few, or about where a repeat is due.
fn gap(random: &mut Random, settings: &Settings) -> u32 {
    let (delay, interval) = (u32::from(settings.keys.delay), u32::from(settings.keys.interval));
    let due = 4 * delay + interval * random.below(6) as u32;
    match random.below(12) {
        0 | 1 => 0,
        2 => 1,
        3 => random.below(40) as u32,
        4 => due - 1,
        5 | 6 => due,
        7 => due + 1,
        8 => delay + 1,
        9 => random.below(2_000) as u32,
        10 if random.one_in(12) => 1 << random.between(12, 31),
        _ => due + random.below(9) as u32,
    }
}

/// A record of another kind, or with another body.
fn odd(random: &mut Random, trace: &mut Vec<u8>, tick: u32, key: u8) {
    let kind = random.pick(&[0, 3, 4, 256, 257, 258, 512, 65_535]);
    let body = [&tick.to_le_bytes()[..], &[key, 1, 2, 3]].concat();
    let length = random.pick(&[0, 1, 4, 6, 8]);
    match random.below(3) {
        0 => put(trace, (kind, tick, key)),
        1 => put_body(trace, random.pick(&[PRESS, RELEASE]), &body[..length]),
        _ => put_body(trace, kind, &body[..length]),
    }
}

/// Presses at one tick up to the longest trace, and beyond.
fn lengthen(random: &mut Random, trace: &mut Vec<u8>) {
    let length = random.pick(&[59_994, 59_994, 60_000, 60_001, 60_003, 61_000]);
    while trace.len() + 9 <= length {
        put(trace, (random.pick(&[PRESS, RELEASE, RELEASE]), u32::MAX, 65));
    }
    match length - trace.len() {
        0..=3 => trace.resize(length, 5),
        // a last record that is whole, and shorter than it should be
        left => put_body(trace, PRESS, &[0; 9][..left - 4]),
    }
}

/// Just enough for the codes, a little less or more, or any.
fn room(random: &mut Random, settings: &Settings, trace: &[u8]) -> usize {
    let mut output = vec![0; 5 * MOST];
    let needed = 5 * reference::repeats::key_repeats(*settings, trace, &mut output).1;
    let any = random.below(1_000);
    random.pick(&[needed, needed, needed + 1, needed + 4, needed + 9, needed.saturating_sub(1), 0, any])
}
