//! Single sequences, with their parameters in range or not.

use super::dots;
use super::messages::Belief;
use super::settings::inside;
use crate::random::Random;

/// Every second byte of the list, written out here a second time.
pub const SECONDS: [u8; 57] = [
    37, 42, 50, 51, 61, 67, 80, 84, 89, 123, 125, 144, 145, 148, 149, 150, 151, 160, 161, 162, 163, 164, 165,
    176, 177, 198, 199, 208, 209, 210, 211, 212, 213, 214, 215, 224, 240, 241, 242, 243, 244, 245, 246,
    247, // and once more those that act on much:
    61, 61, 80, 125, 144, 145, 150, 151, 209, 210, 210, 213, 215,
];

/// One sequence; three in four have every parameter in its range.
pub fn sequence(random: &mut Random, belief: &mut Belief, second: u8, bytes: &mut Vec<u8>) {
    if belief.mode == 3 {
        match second {
            198 => return dots::line(random, bytes),
            199 => return dots::point(random, bytes),
            _ if dots::IDLE.contains(&second) => return dots::idle(random, second, bytes),
            _ => {}
        }
    }
    bytes.extend([27, second]);
    if second == 208 {
        return mode_setting(random, belief, bytes);
    }
    match second {
        144 | 145 if !random.one_in(4) => return scrolling(random, belief.lines(), bytes),
        67 => return bytes.push(if random.one_in(5) { random.byte() } else { random.pick(b"UFGEDWISN") }),
        247 => return bytes.push(random.pick(&[0, 2, 4, 6, 16, 18, 32, 34, 64, 66, 1, 8, 36, 65, 68, 255])),
        _ => {}
    }
    let ranges = ranges(second, belief.height(), belief.lines(), belief.columns());
    ranged(random, &ranges, bytes);
    match bytes[bytes.len() - 1] {
        screen @ 0..=1 if second == 209 => belief.selected = screen.into(),
        display @ 0..=1 if second == 211 => belief.display = display,
        _ => {}
    }
}

/// The range of each parameter, on a screen of these lines and columns and
/// with windows of this height; 67 and 247 take single values, and 208 is
/// left to `mode_setting`.
pub fn ranges(second: u8, height: usize, lines: usize, columns: usize) -> Vec<(usize, usize)> {
    match second {
        37 => vec![(0, 255)],
        61 => vec![(32, lines + 31), (32, columns + 31)],
        144 | 145 => vec![(0, lines - 1), (1, lines)],
        148 => vec![(1, height)],
        149 | 209 | 211 | 240 => vec![(0, 1)],
        198 => vec![(0, 255); 11],
        199 | 243 | 244 | 245 => vec![(0, 255); 4],
        210 => vec![(1, 8), (1, 80), (0, 255)],
        214 => vec![(0, 3)],
        224 => [vec![(224, 254)], vec![(0, 255); 8]].concat(),
        241 | 242 => vec![(1, 127)],
        _ => Vec::new(),
    }
}

/// The ranges of a mode setting's parameters after the mode byte; mode 0's
/// second one hangs on its first.
pub fn mode_ranges(mode: u8, first: u8) -> Vec<(usize, usize)> {
    match mode {
        0 => vec![(8, 40), (8, 48 - usize::from(first.clamp(8, 40)))],
        1 => vec![(16, 48)],
        2 => vec![(8, 48), (1, 78), (0, 255)],
        _ => Vec::new(),
    }
}

/// A parameter for each range; in one of four sequences one lies beyond, and
/// in a third of these perhaps another.
fn ranged(random: &mut Random, ranges: &[(usize, usize)], bytes: &mut Vec<u8>) {
    let mut faults = Vec::new();
    if random.one_in(4) && !ranges.is_empty() {
        faults.push(random.below(ranges.len()));
        if random.one_in(3) {
            faults.push(random.below(ranges.len()));
        }
    }
    for (at, &(low, high)) in ranges.iter().enumerate() {
        let bad = faults.contains(&at);
        bytes.push(if bad { outside(random, low, high) } else { inside(random, low, high) });
    }
}

/// One below, one beyond, or any byte.
fn outside(random: &mut Random, low: usize, high: usize) -> u8 {
    match random.below(3) {
        0 => (low as u8).wrapping_sub(1),
        1 => (high as u8).wrapping_add(1),
        _ => random.byte(),
    }
}

/// 144 and 145: a and m, whose sum has a limit of its own.
fn scrolling(random: &mut Random, lines: usize, bytes: &mut Vec<u8>) {
    let a = usize::from(inside(random, 0, lines - 1));
    let m = inside(random, 1, lines - a);
    bytes.extend([a as u8, if random.one_in(8) { (lines - a + 1) as u8 } else { m }]);
}

fn mode_setting(random: &mut Random, belief: &mut Belief, bytes: &mut Vec<u8>) {
    let mode = random.pick(&[0, 0, 0, 1, 1, 1, 2, 2, 2, 3, 3, 4]);
    if mode == 3 {
        belief.believe_mode_3();
        return bytes.push(3);
    }
    if mode == 4 {
        return bytes.push(random.pick(&[4, 27, 255]));
    }
    let start = bytes.len();
    bytes.push(mode);
    ranged(random, &mode_ranges(mode, 8), bytes);
    if mode == 0 && random.one_in(20) {
        // both too few
        bytes[start + 1..].copy_from_slice(&[random.byte() & 7, random.byte() & 7]);
    } else if mode == 0 && random.one_in(2) {
        // to the sum's limit, or one beyond
        bytes[start + 2] = 48u8.wrapping_sub(bytes[start + 1]).wrapping_add(random.byte() & 1);
    }
    believe_mode(belief, &bytes[start..]);
}

/// Follows a mode setting that looks right; a wrong belief does no harm.
fn believe_mode(belief: &mut Belief, p: &[u8]) {
    let right = match p[0] {
        0 => p[1] >= 8 && p[1] <= 40 && p[2] >= 8 && p[2] <= 48 - p[1],
        1 => p[1] >= 16 && p[1] <= 48,
        _ => p[1] >= 8 && p[1] <= 48 && p[2] >= 1 && p[2] <= 78,
    };
    if right {
        belief.mode = p[0];
        belief.lines = [p[1], if p[0] == 0 { p[2] } else { p[1] }];
        belief.columns = match p[0] {
            0 => [80, 80],
            1 => [39, 39],
            _ => [p[2], 79 - p[2]],
        };
        belief.selected = 0;
    }
}
