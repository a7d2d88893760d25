//! The plain program against the reference, on random messages of the kind that it is for,
//! in every mode: the answer, the shown screen, cells, layer, cursors and windows are the
//! same after each.

use reference::{Place, Settings};
use repainting::{Answer, Terminal};
use std::collections::BTreeSet;

const LISTS: usize = 40;
const MESSAGES: usize = 60;

/// A seeded source of numbers (splitmix64).
struct Random(u64);

impl Random {
    fn number(&mut self) -> u64 {
        self.0 = self.0.wrapping_add(0x9e37_79b9_7f4a_7c15);
        let mut mixed = self.0;
        mixed = (mixed ^ mixed >> 30).wrapping_mul(0xbf58_476d_1ce4_e5b9);
        mixed = (mixed ^ mixed >> 27).wrapping_mul(0x94d0_49bb_1331_11eb);
        mixed ^ mixed >> 31
    }

    /// `low` to `high`, both included.
    fn between(&mut self, low: usize, high: usize) -> usize {
        low + (self.number() % (high - low + 1) as u64) as usize
    }

    fn byte(&mut self, low: usize, high: usize) -> u8 {
        self.between(low, high) as u8
    }

    /// The bytes after 27, 208.
    fn mode(&mut self, mode: u8) -> Vec<u8> {
        match mode {
            0 => {
                let first = self.between(8, 40);
                vec![0, first as u8, self.byte(8, 48 - first)]
            }
            1 => vec![1, self.byte(16, 48)],
            2 => vec![2, self.byte(8, 48), self.byte(1, 78), self.byte(0, 255)],
            _ => vec![3],
        }
    }

    /// Of a message. A byte behind ESC that is not in the list is refused by 10.
    fn item(&mut self, lines: usize, columns: usize) -> Vec<u8> {
        match self.between(0, 99) {
            0..=39 => vec![self.byte(32, 255)],
            40..=59 => (0..self.between(2, 20)).map(|_| self.byte(48, 57)).collect(),
            60..=81 => vec![[8, 10, 13][self.between(0, 2)]],
            82 => vec![[0, 1, 7, 9, 11, 14, 26, 28, 31][self.between(0, 8)]],
            83..=95 => vec![27, 61, self.byte(32, lines + 31), self.byte(32, columns + 31)],
            96 => vec![27, 61, self.byte(0, 255), self.byte(0, 255)],
            97 => vec![27, 61, self.byte(32, lines + 31), self.byte(0, 255)],
            _ => vec![27, [27, 65, 8, 0, 255][self.between(0, 4)]],
        }
    }

    /// Up to six items, and at times a sequence that the end cuts.
    fn message(&mut self, lines: usize, columns: usize) -> Vec<u8> {
        let mut message: Vec<u8> = (0..self.between(0, 6)).flat_map(|_| self.item(lines, columns)).collect();
        if self.between(0, 49) == 0 {
            message.extend(&[27, 61, 32][..self.between(1, 3)]);
        }
        message
    }
}

/// The reference with its stores, and the plain program, as they stand.
#[derive(Clone)]
struct Both {
    settings: Settings,
    cells: Vec<u8>,
    layer: Vec<u8>,
    shown: Vec<u8>,
    dots: Vec<u8>,
    plain: Terminal,
}

impl Both {
    /// In a mode, with any bytes in cells and layer, any cursors, windows and selection.
    fn start(random: &mut Random, mode: u8) -> Both {
        let bytes = random.mode(mode);
        let (mut cells, mut layer) = (vec![0; 3840], vec![0; 1280]);
        let (mut shown, mut dots) = (vec![0; 640], vec![0; 3840]);
        let opened = reference::opening(1, &mut cells, &mut layer, &mut shown, &mut dots).0;
        let setting = [&[27, 208], &bytes[..]].concat();
        let (mut settings, answer) =
            reference::message(opened, &setting, &mut cells, &mut layer, &mut shown, &mut dots, &mut []);
        assert_eq!((answer.accepted, answer.refused), (1, 0), "{bytes:?}");
        let mut plain = Terminal::new(&bytes);
        for screen in 0..settings.screens() {
            let line = random.between(1, settings.lines(screen));
            let column = random.between(1, settings.columns(screen));
            let top = random.between(1, settings.greatest_top(screen));
            settings.places[screen] =
                Place { line: line as u8, column: column as u8, top: top as u8, waiting: 0 };
            let other = &mut plain.screens[screen];
            (other.line, other.column, other.top) = (line, column, top);
        }
        plain.selected = random.between(0, settings.screens() - 1);
        settings.selected = plain.selected as u8;
        cells.fill_with(|| random.byte(0, 255));
        plain.cells.copy_from_slice(&cells);
        let mut both = Both { settings, cells, layer, shown, dots, plain };
        both.lay(random);
        both
    }

    /// Fills the layer: a mark in every fourth place, any codes.
    fn lay(&mut self, random: &mut Random) {
        self.layer[..640].fill_with(|| random.byte(0, 255).saturating_sub(191));
        self.layer[640..].fill_with(|| random.byte(0, 255));
        self.plain.layer.copy_from_slice(&self.layer);
    }

    /// Sends a message to both, which must do the same; the answer.
    fn send(&mut self, message: &[u8]) -> Answer {
        let Both { settings, cells, layer, shown, dots, plain } = self;
        let (after, answer) = reference::message(*settings, message, cells, layer, shown, dots, &mut []);
        let found = plain.message(message);
        let expected = Answer {
            number: answer.number,
            taken: answer.taken as usize,
            accepted: answer.accepted as usize,
            refused: answer.refused as usize,
            first: answer.first,
            offset: answer.offset as usize,
            parameter: answer.parameter,
        };
        assert_eq!(found, expected, "{message:?} in {settings:?}");
        assert_eq!(answer.printed, 0);
        let places = plain.screens.map(|screen| [screen.line, screen.column, screen.top]);
        let expected = after.places.map(|place| [place.line, place.column, place.top].map(usize::from));
        assert_eq!(places, expected, "{message:?} in {settings:?}");
        assert_eq!(usize::from(after.selected), plain.selected);
        assert!(plain.cells[..] == cells[..], "cells: {message:?} in {settings:?}");
        assert!(plain.layer[..] == layer[..], "layer: {message:?} in {settings:?}");
        assert!(plain.shown[..] == shown[..], "shown: {message:?} in {settings:?}");
        *settings = after;
        found
    }
}

/// What a message brought about.
fn reached(before: &Both, after: &Both, answer: &Answer) -> Vec<&'static str> {
    let top = |both: &Both| both.plain.screens[both.plain.selected].top;
    let marks = |both: &Both| both.plain.layer.iter().filter(|&&byte| byte != 0).count();
    let moved = top(before) != top(after);
    let all = [
        (answer.accepted > 0, "placed"),
        (moved, "window moved"),
        (!moved && marks(before) > 0 && marks(after) == 0, "lifted"),
        (marks(after) > 0 && marks(after) < marks(before), "printed over a mark"),
        (answer.first == 10, "10"),
        (answer.first == 11 && answer.parameter == 1, "11 by the first"),
        (answer.first == 11 && answer.parameter == 2, "11 by the second"),
        (answer.first == 12, "12"),
    ];
    all.into_iter().filter(|(is_so, _)| *is_so).map(|(_, name)| name).collect()
}

#[test]
fn random_messages_in_every_mode() {
    for mode in 0..4 {
        let mut random = Random(u64::from(mode) + 1);
        let mut seen = BTreeSet::new();
        for _ in 0..LISTS {
            let mut both = Both::start(&mut random, mode);
            for _ in 0..MESSAGES {
                if random.between(0, 3) == 0 {
                    both.lay(&mut random);
                }
                let screen = both.plain.selected;
                let message = random.message(both.settings.lines(screen), both.settings.columns(screen));
                let before = both.clone();
                let answer = both.send(&message);
                seen.extend(reached(&before, &both, &answer));
            }
        }
        // nothing is missing, but that mode 3's window is its whole screen
        assert_eq!(seen.len(), if mode == 3 { 7 } else { 8 }, "mode {mode}: {seen:?}");
    }
}

#[test]
fn a_message_over_4096_bytes_is_refused() {
    let mut both = Both::start(&mut Random(9), 0);
    assert_eq!(both.send(&[65; 4096]).number, 0);
    assert_eq!(both.send(&[65; 4097]).number, 2);
}
