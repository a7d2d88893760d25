//! Random starts, settings, messages and calls.
//!
//! - `settings`: sound ones, and ones that are not
//! - `messages`: messages, part by part
//! - `sequences`: single sequences, with parameters in their ranges or not
//! - `streams`: pieces of a line, and what waits
//! - `keyline`: key texts
//! - `lines`: lines that run on
//! - `late`: the late wrap
//! - `dots`: mode 3
//! - `packs`: packs of messages
//! - `shorts`: short messages

pub mod dots;
mod keyline;
pub mod late;
pub mod lines;
mod messages;
pub mod packs;
pub mod sequences;
mod settings;
mod shorts;
pub mod streams;

pub use messages::{message, Belief};
pub use settings::{settings, unsound, FIELDS};

use crate::random::Random;
use reference::Settings;

/// The right sizes of cells, layer, shown screen and dots.
pub const SIZES: [usize; 4] = [3840, 1280, 640, 3840];
pub const STORE_NAMES: [&str; 4] = ["cells", "layer", "shown", "dots"];

#[derive(Clone, Copy, Debug, PartialEq, Eq)]
pub enum Kind {
    Message,
    /// a message that paints less
    Short,
    Piece,
    Closing,
    Pack,
    /// with the key's number
    KeyText(usize),
    /// with the rule; a list has it only at its start
    Opening(usize),
}

/// A call: settings of its own if it breaks some, sizes of its stores, the
/// message, the piece, the pack or the text, and the printer room.
pub struct Call {
    pub kind: Kind,
    pub settings: Option<(&'static str, Settings)>,
    pub sizes: [usize; 4],
    pub message: Vec<u8>,
    pub room: usize,
}

/// `line` is what is still to come of the stream; a piece is its first part. With
/// `shorts` most calls are short messages.
pub fn call(random: &mut Random, settings: &Settings, line: &mut Vec<u8>, shorts: bool) -> Call {
    let kind = kind(random, settings, shorts);
    let message = match kind {
        Kind::Message => message(random, settings),
        Kind::Short => shorts::message(random, settings),
        Kind::Piece => streams::piece(random, settings, line),
        Kind::Pack => packs::pack(random, settings),
        Kind::Closing | Kind::Opening(_) => Vec::new(),
        Kind::KeyText(_) => keyline::text(random),
    };
    // a message that is too long is more often refused for more than that
    let long = message.len() > if kind == Kind::Pack { 60_000 } else { 4096 };
    let (often_broken, often_sized) = if long { (3, 4) } else { (12, 25) };
    let broken = random.one_in(often_broken).then(|| unsound(random, settings));
    // a key text has no store
    let stores = !matches!(kind, Kind::KeyText(_));
    let sizes = if stores && random.one_in(often_sized) { wrong_sizes(random) } else { SIZES };
    let prints = matches!(kind, Kind::Message | Kind::Short | Kind::Piece | Kind::Pack);
    let room = if prints { room(random, settings.mode) } else { 0 };
    Call { kind, settings: broken, sizes, message, room }
}

fn kind(random: &mut Random, settings: &Settings, shorts: bool) -> Kind {
    // while bytes wait a short message is only refused
    let waits = settings.held > 0 && !random.one_in(4);
    match random.below(20) {
        0..=1 => keyline::kind(random),
        2..=17 if shorts && !waits => Kind::Short,
        2..=4 => Kind::Pack,
        5..=8 if !waits => Kind::Short,
        _ => streams::kind(random, settings),
    }
}

/// One store of another size, now and then all four.
pub fn wrong_sizes(random: &mut Random) -> [usize; 4] {
    let mut sizes = SIZES;
    let one = random.below(4);
    let all = random.one_in(8);
    for store in 0..4 {
        if store == one || all {
            let right = SIZES[store];
            let others = [0, right - 1, right + 1, right + 1 + random.below(300), random.below(right)];
            sizes[store] = random.pick(&others);
        }
    }
    sizes
}

fn room(random: &mut Random, mode: u8) -> usize {
    if random.one_in(if mode == 3 { 2 } else { 12 }) {
        return random.pick(&[656, 3839, 3840, 3841, 7679, 7680]);
    }
    match random.below(8) {
        0 => 0,
        1 => 655,
        2 => 656,
        3 => 1311,
        4 => 1312,
        5 => random.pick(&[1, 657, 1313, 1967, 1968, 2623, 2624, 6560]),
        _ => random.below(2100),
    }
}

/// Any bytes in the stores; the layer with few, many or no marks, now and then no
/// dots.
pub fn fill_stores(
    random: &mut Random,
    cells: &mut [u8],
    layer: &mut [u8],
    shown: &mut [u8],
    dots: &mut [u8],
) {
    random.fill(cells);
    random.fill(layer);
    random.fill(shown);
    random.fill(dots);
    if random.one_in(4) {
        dots.fill(0);
    }
    let density = random.pick(&[0, 3, 40, 128, 256]);
    let half = layer.len() / 2;
    for mark in &mut layer[..half] {
        if usize::from(*mark) >= density {
            *mark = 0;
        }
    }
}
