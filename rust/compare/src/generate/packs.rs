//! Packs: records of messages, whole and cut, of other kinds and too long.

use super::messages::message;
use super::settings::inside;
use crate::random::Random;
use reference::Settings;

const LIMIT: usize = 60_000;

/// A record of a pack, or of a recording.
pub fn put(pack: &mut Vec<u8>, kind: u16, body: &[u8]) {
    pack.extend((body.len() as u16).to_le_bytes());
    pack.extend(kind.to_le_bytes());
    pack.extend(body);
}

/// Most often a few messages, all good; one in three has something wrong.
pub fn pack(random: &mut Random, settings: &Settings) -> Vec<u8> {
    if random.one_in(10) {
        return Vec::new();
    }
    let mut records: Vec<(u16, Vec<u8>)> =
        bodies(random, settings).into_iter().map(|body| (1, body)).collect();
    if random.one_in(3) {
        for _ in 0..random.between(1, 2) {
            fault(random, &mut records);
        }
    }
    let mut pack = Vec::new();
    for (kind, body) in &records {
        put(&mut pack, *kind, body);
    }
    if random.one_in(5) {
        cut(random, &mut pack);
    }
    if random.one_in(60) {
        to_the_limit(random, &mut pack);
    }
    pack
}

fn bodies(random: &mut Random, settings: &Settings) -> Vec<Vec<u8>> {
    match random.below(20) {
        // many short ones
        0 => (0..random.between(20, 300)).map(|_| short(random)).collect(),
        // copies, one behind the other
        1..=6 => (0..random.between(2, 6)).map(|_| copies(random)).collect(),
        _ => (0..random.between(1, 5)).map(|_| body(random, settings)).collect(),
    }
}

fn body(random: &mut Random, settings: &Settings) -> Vec<u8> {
    match random.below(5) {
        0 => short(random),
        1 => copies(random),
        _ => message(random, settings),
    }
}

fn short(random: &mut Random) -> Vec<u8> {
    let digits = (0..random.between(1, 6)).map(|_| b'0' + random.below(10) as u8).collect();
    match random.below(10) {
        0 => Vec::new(),
        1 => vec![27],
        2 => vec![27, 209],
        3 => vec![27, 209, random.byte() & 1],
        4 => vec![b'A', 27, random.pick(&[27, 61, 208, 198])],
        5 => vec![27, 61, inside(random, 31, 60), inside(random, 31, 120)],
        6 => vec![27, 208, 3],
        _ => digits,
    }
}

/// A copy with something before it, seldom two; or nothing.
fn copies(random: &mut Random) -> Vec<u8> {
    match random.below(8) {
        0 => Vec::new(),
        1 => vec![27, 80, b'B', 27, 80],
        2 => vec![27, 80, 27, random.byte()],
        _ => vec![b'A' + random.below(26) as u8, 27, 80],
    }
}

/// Another kind, or a body too long or just not.
fn fault(random: &mut Random, records: &mut [(u16, Vec<u8>)]) {
    let at = random.below(records.len());
    let (kind, body) = &mut records[at];
    let any = u16::from_le_bytes([random.byte(), random.byte()]);
    match random.below(3) {
        0 => *body = vec![b'x'; random.pick(&[4096, 4097, 4097, 5000])],
        _ => *kind = random.pick(&[0, 2, 257, 256, 0x0101, 0x0100, 0xff01, any]),
    }
}

/// The last record cut somewhere, or one to three bytes of another behind it.
fn cut(random: &mut Random, pack: &mut Vec<u8>) {
    if random.one_in(2) {
        let behind = [random.byte(), 0, 1];
        pack.extend(&behind[..random.between(1, 3)]);
    } else {
        pack.truncate(random.below(pack.len() + 1));
    }
}

/// 60,000 bytes or one or two more, by records of text in front.
fn to_the_limit(random: &mut Random, pack: &mut Vec<u8>) {
    let size = random.pick(&[LIMIT, LIMIT, LIMIT + 1, LIMIT + 2, LIMIT + 300]);
    let mut front = Vec::new();
    while front.len() + pack.len() < size {
        let left = size - front.len() - pack.len();
        // a record of the size that is left, or one that leaves room for a last
        let length = if left <= 4100 { left.max(4) - 4 } else { (left - 4).min(4096).min(left - 8) };
        put(&mut front, 1, &vec![b'a' + (length % 26) as u8; length]);
    }
    pack.splice(0..0, front);
}
