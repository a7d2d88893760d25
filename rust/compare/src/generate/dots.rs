//! Mode 3: settings of it, sound and not, dots and lines of dots, and what is
//! idle there.

use super::messages::Belief;
use super::settings::inside;
use crate::random::Random;
use reference::settings::HOME;
use reference::Settings;

/// Second bytes that do nothing in mode 3.
pub const IDLE: [u8; 10] = [148, 149, 150, 151, 209, 211, 212, 213, 214, 215];
/// Those of them that have a parameter.
pub const IDLE_WITH_ONE: [u8; 5] = [148, 149, 209, 211, 214];

/// Sound settings of mode 3, as near to the given ones as may be.
pub fn in_mode_3(random: &mut Random, given: &Settings) -> Settings {
    let mut settings = *given;
    settings.mode = 3;
    (settings.lines1, settings.lines2, settings.columns1, settings.columns2) = (8, 0, 80, 0);
    (settings.kind, settings.display, settings.selected) = (3, 1, 0);
    settings.step = inside(random, 1, 8);
    let column = inside(random, 1, 80);
    settings.places = [HOME; 2];
    (settings.places[0].line, settings.places[0].column) = (inside(random, 1, 8), column);
    settings.places[0].waiting = super::late::flag(random, settings.rule, column == 80);
    settings.marks = super::lines::marks(random, [8, 0]);
    settings
}

/// The ways in which settings of mode 3 are made unsound.
pub const MODE_3_FAULTS: [&str; 14] = [
    "mode 3, another type",
    "mode 3, the key line",
    "mode 3, screen 2 selected",
    "mode 3, line of screen 2",
    "mode 3, column of screen 2",
    "mode 3, top of screen 2",
    "mode 3, flag of screen 2",
    "mode 3, lines of screen 1",
    "mode 3, lines of screen 2",
    "mode 3, columns of screen 1",
    "mode 3, columns of screen 2",
    "mode 3, top of screen 1",
    "mode 3, mark on screen 2",
    "mode 3, measures of mode 0",
];

pub fn break_mode_3(random: &mut Random, fault: &str, settings: &mut Settings) {
    *settings = in_mode_3(random, settings);
    let [first, second] = &mut settings.places;
    match fault {
        "mode 3, another type" => settings.kind = random.pick(&[0, 1, 2, 4]),
        "mode 3, the key line" => {
            settings.display = 0;
            settings.step = settings.step.min(7);
        }
        "mode 3, screen 2 selected" => settings.selected = 1,
        "mode 3, line of screen 2" => second.line = random.pick(&[0, 2, 8]),
        "mode 3, column of screen 2" => second.column = random.pick(&[0, 2, 80]),
        "mode 3, top of screen 2" => second.top = random.pick(&[0, 2, 9]),
        "mode 3, flag of screen 2" => second.waiting = 1,
        "mode 3, lines of screen 1" => settings.lines1 = random.pick(&[9, 16, 24, 48]),
        "mode 3, lines of screen 2" => settings.lines2 = random.pick(&[1, 8, 16]),
        "mode 3, columns of screen 1" => settings.columns1 = random.pick(&[81, 255]),
        "mode 3, columns of screen 2" => settings.columns2 = random.pick(&[1, 79, 80]),
        "mode 3, top of screen 1" => first.top = random.pick(&[0, 2]),
        "mode 3, mark on screen 2" => settings.marks[random.pick(&[48, 49, 55, 95])] = 1,
        _ => (settings.lines2, settings.columns2) = (8, 80),
    }
}

/// A sequence that is idle in mode 3, with any parameter.
pub fn idle(random: &mut Random, second: u8, bytes: &mut Vec<u8>) {
    bytes.extend([27, second]);
    if IDLE_WITH_ONE.contains(&second) {
        let any = random.byte();
        bytes.push(random.pick(&[any, 0, 1, 2, 4, 8, 9, 27, 255]));
    }
}

/// Dots and lines in mode 3, and what keeps or clears them.
pub fn drawing(random: &mut Random, belief: &mut Belief, bytes: &mut Vec<u8>) {
    if belief.mode != 3 && !random.one_in(3) {
        bytes.extend([27, 208, 3]);
        belief.believe_mode_3();
    }
    for _ in 0..random.between(1, 4) {
        match random.below(12) {
            0..=2 => point(random, bytes),
            3..=8 => line(random, bytes),
            9 => {
                let second = random.pick(&IDLE);
                idle(random, second, bytes);
            }
            10 => bytes.extend(random.pick(&[&[27, 80][..], &[27, 80], &[27, 42], &[12]])),
            _ => {
                bytes.extend(random.pick(&[&[10; 9][..], &[27, 84], &[27, 89], &[27, 144, 0, 8], &[27, 123]]))
            }
        }
    }
}

/// 199: three in four are good.
pub fn point(random: &mut Random, bytes: &mut Vec<u8>) {
    let [high, low] = horizontal(random).to_be_bytes();
    let mut parameters = [random.byte() & 1, vertical(random) as u8, high, low];
    if random.one_in(4) {
        for _ in 0..random.between(1, 2) {
            match random.below(3) {
                0 => parameters[0] = random.pick(&[2, 3, 27, 255]),
                1 => parameters[1] = random.pick(&[64, 65, 255]),
                _ => parameters[2..].copy_from_slice(&too_far(random, 480)),
            }
        }
    }
    bytes.extend([27, 199]);
    bytes.extend(parameters);
}

/// 198: three in four are good.
pub fn line(random: &mut Random, bytes: &mut Vec<u8>) {
    let [x0, y0, x1, y1] = ends(random);
    let mut parameters: Vec<u8> = [x0, y0, x1, y1].iter().flat_map(|end| end.to_be_bytes()).collect();
    parameters.extend(mask(random));
    parameters.push(random.between(1, 3) as u8);
    if random.one_in(4) {
        for _ in 0..random.between(1, 2) {
            match random.below(5) {
                4 => parameters[10] = random.pick(&[0, 4, 5, 255]),
                end => {
                    let limit = if end % 2 == 0 { 480 } else { 64 };
                    parameters[2 * end..2 * end + 2].copy_from_slice(&too_far(random, limit));
                }
            }
        }
    }
    bytes.extend([27, 198]);
    bytes.extend(parameters);
}

/// The first number beyond, one with a high byte that is too large, or any beyond.
fn too_far(random: &mut Random, limit: u16) -> [u8; 2] {
    let low = random.byte();
    let any = random.between(limit.into(), 65_535) as u16;
    random.pick(&[limit, limit + 1, any, u16::from_be_bytes([2, low]), 65_535]).to_be_bytes()
}

fn horizontal(random: &mut Random) -> u16 {
    let any = random.below(480) as u16;
    random.pick(&[any, any, any, 0, 479, 255, 256, 7, 8])
}

fn vertical(random: &mut Random) -> u16 {
    let any = random.below(64) as u16;
    random.pick(&[any, any, any, 0, 63])
}

/// Start and end of a line, each horizontal and vertical.
fn ends(random: &mut Random) -> [u16; 4] {
    let (x, y) = (horizontal(random), vertical(random));
    let near = |from: u16, by: usize, last: u16, random: &mut Random| {
        let by = random.below(by + 1) as u16;
        if random.one_in(2) {
            from.saturating_sub(by)
        } else {
            (from + by).min(last)
        }
    };
    match random.below(9) {
        0 => [x, y, x, y],
        1 => [x, y, horizontal(random), y],
        2 => [x, y, x, vertical(random)],
        3 => diagonal(random, x, y),
        4 => [x, y, near(x, 6, 479, random), near(y, 6, 63, random)],
        5 | 6 => [x, y, near(x, 40, 479, random), near(y, 63, 63, random)],
        7 => random.pick(&[[0, 0, 479, 63], [479, 63, 0, 0], [479, 0, 0, 63], [0, 63, 479, 0]]),
        _ => [x, y, horizontal(random), vertical(random)],
    }
}

/// Both distances equal, as far as there is room.
fn diagonal(random: &mut Random, x: u16, y: u16) -> [u16; 4] {
    let (right, down) = (random.one_in(2), random.one_in(2));
    let room_x = if right { 479 - x } else { x };
    let room_y = if down { 63 - y } else { y };
    let by = random.below(usize::from(room_x.min(room_y)) + 1) as u16;
    [x, y, if right { x + by } else { x - by }, if down { y + by } else { y - by }]
}

fn mask(random: &mut Random) -> [u8; 2] {
    let any = [random.byte(), random.byte()];
    random.pick(&[any, any, any, [255, 255], [255, 255], [170, 170], [128, 0], [0, 128], [0, 1], [0, 0]])
}
