//! Counts what the lists reached. Accepted messages are read a second time,
//! item by item, with the reference's reader; a class is seen by what stands
//! before and after an item.

mod before;
mod dots;
mod ends;
mod items;
mod keyline;
mod late;
mod lines;
mod list;
mod packs;
mod parameters;
mod short;
mod streams;

use self::before::Before;
use self::dots::Dots;
use self::keyline::KeyLine;
use self::late::Late;
use self::lines::Lines;
use self::list::{CLASSES, JUDGED};
use self::packs::Packs;
use self::parameters::Parameters;
use self::short::Short;
use self::streams::Streams;
use crate::generate::dots::MODE_3_FAULTS;
use crate::generate::late::RULE_FAULTS;
use crate::generate::lines::MARK_FAULTS;
use crate::generate::sequences::SECONDS;
use crate::generate::streams::STREAM_FAULTS;
use crate::generate::{Call, Kind, FIELDS, SIZES, STORE_NAMES};
use reference::apply::Standing;
use reference::read::{idle, read, Item};
use reference::stream::{unfinished, waits};
use reference::{sound, Answer, Settings};
use std::collections::BTreeMap;

#[derive(Default)]
pub struct Coverage {
    accepted: BTreeMap<u8, u64>,
    refused_by_11: BTreeMap<u8, u64>,
    cut: BTreeMap<u8, u64>,
    unlisted: BTreeMap<u8, u64>,
    classes: BTreeMap<&'static str, u64>,
    unsound: BTreeMap<&'static str, u64>,
    sizes: BTreeMap<String, u64>,
    ends: BTreeMap<(&'static str, u8, usize), u64>,
    parameters: Parameters,
    streams: Streams,
    key_line: KeyLine,
    lines: Lines,
    late: Late,
    dots: Dots,
    packs: Packs,
    short: Short,
    /// cells, layer, shown screen and dots
    stores: [Vec<u8>; 4],
}

impl Coverage {
    /// Every class at 0, so that those never reached are seen.
    pub fn new() -> Coverage {
        let unlisted = (0..=255).filter(|second| !SECONDS.contains(second));
        let mut coverage = Coverage {
            classes: CLASSES.iter().map(|&name| (name, 0)).collect(),
            accepted: SECONDS.iter().map(|&second| (second, 0)).collect(),
            refused_by_11: JUDGED.iter().chain(&[198, 199]).map(|&second| (second, 0)).collect(),
            unlisted: unlisted.map(|second| (second, 0)).collect(),
            unsound: FIELDS
                .iter()
                .map(|&(name, _)| name)
                .chain(STREAM_FAULTS)
                .chain(MARK_FAULTS)
                .chain(RULE_FAULTS)
                .chain(MODE_3_FAULTS)
                .map(|name| (name, 0))
                .collect(),
            parameters: Parameters::new(),
            streams: Streams::new(),
            ..Coverage::default()
        };
        for &second in &SECONDS {
            let mode = (second == 208).then_some(0);
            let length = reference::read::length(second, mode).unwrap();
            if length > 2 && second != 209 {
                coverage.cut.insert(second, 0);
            }
        }
        coverage.expect_ends();
        for call in ["opening", "message", "short message", "piece", "closing", "pack"] {
            for store in STORE_NAMES {
                for size in ["empty", "short", "long"] {
                    coverage.sizes.insert(format!("{call}, {store} {size}"), 0);
                }
            }
        }
        coverage
    }

    fn count(&mut self, class: &'static str) {
        match self.classes.get_mut(class) {
            Some(count) => *count += 1,
            None => panic!("the class {class:?} is not in the list"),
        }
    }

    fn count_if(&mut self, reached: bool, class: &'static str) {
        if reached {
            self.count(class);
        }
    }

    pub fn opening(&mut self, rule: usize, sizes: [usize; 4], number: u8) {
        self.count(match (number, rule) {
            (0, 1) => "opening 0 by rule 1",
            (0, _) => "opening 0 by rule 2",
            (1, _) => "opening 1",
            _ => "opening 23",
        });
        self.count_if(number == 1 && !(1..=2).contains(&rule), "order: opening 1 with 23");
        self.count_sizes("opening", sizes);
    }

    fn count_sizes(&mut self, call: &str, sizes: [usize; 4]) {
        for store in 0..4 {
            let size = match sizes[store] {
                0 => "empty",
                size if size < SIZES[store] => "short",
                size if size > SIZES[store] => "long",
                _ => continue,
            };
            let name = format!("{call}, {} {size}", STORE_NAMES[store]);
            *self.sizes.get_mut(&name).unwrap() += 1;
        }
    }

    pub fn printer_call(&mut self, length: usize, count: usize) {
        self.count_if(count > length, "printer call beyond the buffer");
        self.count_if(count == length && length > 0, "printer call of the whole buffer");
    }

    /// Keeps the stores as they stand before a call.
    pub fn remember(&mut self, stores: &[Vec<u8>; 4]) {
        for (kept, store) in self.stores.iter_mut().zip(stores) {
            kept.clone_from(store);
        }
    }

    /// Counts a call that is done.
    pub fn call(&mut self, call: &Call, settings: &Settings, answer: &Answer, record: u32) {
        self.streams.call(call, settings, answer);
        if answer.number == 3 {
            let (name, _) = call.settings.expect("only broken settings are unsound");
            *self.unsound.get_mut(name).unwrap() += 1;
        }
        match call.kind {
            Kind::Message => {
                self.numbers(call, settings, answer);
                self.lengths(call);
                self.count_sizes("message", call.sizes);
            }
            Kind::Short => {
                self.short.call(call, settings, answer);
                self.count_sizes("short message", call.sizes);
            }
            Kind::Piece => self.count_sizes("piece", call.sizes),
            Kind::Closing => self.count_sizes("closing", call.sizes),
            Kind::Pack => {
                self.packs.call(call, settings, answer, record);
                self.count_sizes("pack", call.sizes);
            }
            // it reads nothing
            Kind::KeyText(number) => return self.key_line.key_text(number, call, settings, answer),
            // counted at the list's start
            Kind::Opening(_) => return,
        }
        if answer.number == 0 {
            self.refusals(answer);
            self.walk(call, settings);
        }
    }

    fn numbers(&mut self, call: &Call, settings: &Settings, answer: &Answer) {
        let long = call.message.len() > 4096;
        let broken = !sound(settings);
        match answer.number {
            0 => self.count("call 0"),
            1 => {
                self.count("call 1");
                self.count_if(long, "order: 1 with 2");
                self.count_if(broken, "order: 1 with 3");
            }
            2 => {
                self.count("call 2");
                self.count_if(broken, "order: 2 with 3");
            }
            3 => self.count("call 3"),
            _ => self.count("call 16"),
        }
    }

    fn lengths(&mut self, call: &Call) {
        match call.message.len() {
            0 => self.count("message empty"),
            4096 => self.count("message of 4096"),
            4097 => self.count("message of 4097"),
            4098.. => self.count("message longer"),
            _ => {}
        }
        match call.room {
            0 => self.count("room 0"),
            655 => self.count("room 655"),
            656 => self.count("room 656"),
            1311 => self.count("room 1311"),
            1312 => self.count("room 1312"),
            3839 => self.count("room 3839"),
            3840 => self.count("room 3840"),
            7679 => self.count("room 7679"),
            7680 => self.count("room 7680"),
            1313.. => self.count("room larger"),
            _ => {}
        }
    }

    fn refusals(&mut self, answer: &Answer) {
        self.count_if(answer.refused > 1, "several refusals in a call");
        match answer.first {
            10 => self.count("first refusal 10"),
            11 => self.count("first refusal 11"),
            12 => self.count("first refusal 12"),
            13 => self.count("first refusal 13"),
            _ => {}
        }
    }

    /// Reads what an accepted call reads, item by item.
    fn walk(&mut self, call: &Call, settings: &Settings) {
        let mut stores = std::mem::take(&mut self.stores);
        let [cells, layer, shown, dots] = &mut stores;
        let mut printer = vec![0; call.room];
        let mut standing =
            Standing { settings: *settings, cells, layer, dots, printer: &mut printer, printed: 0 };
        let mut refusals = Vec::new();
        if call.kind == Kind::Short {
            self.short.begins(&standing, shown);
        }
        for bytes in parts(call, settings) {
            self.walk_part(call, settings, &bytes, &mut standing, &mut refusals);
        }
        if call.kind == Kind::Short {
            self.short.ends(&call.message, &standing);
        }
        self.key_line.painted(&standing);
        self.parameters.several(&refusals);
        self.stores = stores;
    }

    fn walk_part(
        &mut self,
        call: &Call,
        settings: &Settings,
        bytes: &[u8],
        standing: &mut Standing,
        refusals: &mut Vec<(u8, u8)>,
    ) {
        let mut offset = 0;
        while offset < bytes.len() {
            let rest = &bytes[offset..];
            if call.kind == Kind::Piece && unfinished(rest) {
                break;
            }
            let (item, length) = read(rest, &standing.settings, call.room - standing.printed);
            let before = Before::of(standing);
            standing.apply(&item);
            if call.kind == Kind::Short {
                self.short.item(&item, rest.get(1), &before, standing);
            }
            if call.kind == Kind::Piece && offset == 0 {
                self.finished(&item, settings);
            }
            if let Item::Refusal { number, parameter } = item {
                self.refusal(number, rest, &before, standing.cells);
                self.named(number, parameter, &rest[1..length], call.room, &before);
                refusals.push((number, parameter));
            } else {
                self.accepted_item(&item, length, call.room, &before, standing);
            }
            offset += length;
        }
        if call.kind == Kind::Piece {
            self.streams.waits(&bytes[offset..], offset, settings);
        }
    }

    /// The first item of a piece.
    fn finished(&mut self, item: &Item, settings: &Settings) {
        self.streams.finished(item, settings);
        let line = matches!(item, Item::Sequence { second: 198, .. });
        if line && settings.held > 0 && settings.mode == 3 {
            self.dots.finished();
        }
    }

    fn accepted_item(
        &mut self,
        item: &Item,
        length: usize,
        room: usize,
        before: &Before,
        standing: &Standing,
    ) {
        self.dots.item(item, length, room, before, standing);
        self.item(item, length, before, standing);
        // what is idle tells nothing of the marks and flags that it leaves
        if !matches!(item, Item::Sequence { second, .. } if idle(*second, &before.settings)) {
            self.lines.item(item, before, standing);
            self.late.item(item, before, standing);
        }
    }

    /// A refused sequence, from its second byte on: which parameter it names.
    fn named(&mut self, number: u8, parameter: u8, sequence: &[u8], room: usize, before: &Before) {
        if sequence.is_empty() {
            return;
        }
        self.dots.refused(number, parameter, sequence, room, before);
        if number == 11 && !matches!(sequence[0], 198 | 199) {
            self.parameters.refused(parameter, sequence, &before.settings);
        }
    }

    fn refusal(&mut self, number: u8, rest: &[u8], before: &Before, cells: &[u8]) {
        let Some(&second) = rest.get(1) else { return };
        if number == 11 {
            let length = reference::read::length(second, rest.get(2).copied()).unwrap();
            self.count_ends(second, &rest[2..length], before);
            *self.refused_by_11.get_mut(&second).expect("only judged bytes are refused by 11") += 1;
        }
        if number == 10 {
            *self.unlisted.get_mut(&second).expect("only bytes not in the list are refused by 10") += 1;
        }
        if number == 12 {
            *self.cut.get_mut(&second).expect("only sequences with parameters are cut") += 1;
        }
        let bad_line = second == 61 && rest.get(2).is_some_and(|&byte| byte < 32);
        self.count_if(number == 12 && bad_line, "61 cut after a bad line");
        let text = before.settings.mode == 0 && cells.iter().any(|&code| code != 32);
        self.count_if(second == 208 && text, "208 refused with text standing");
        self.lines.refused(second, before);
        self.late.refused(before);
    }

    /// Every class with its count, in lines of words.
    pub fn lines(&self) -> Vec<(String, u64)> {
        let mut lines = Vec::new();
        let groups =
            [("accepted", &self.accepted), ("refused by 11", &self.refused_by_11), ("cut", &self.cut)];
        for (group, counts) in groups {
            lines.extend(counts.iter().map(|(second, &count)| (format!("{group}: {second}"), count)));
        }
        // many bytes, one line: the byte reached least often
        let least = self.unlisted.values().min().copied().unwrap_or(0);
        lines.push(("refused by 10: each byte not in the list, at least".to_string(), least));
        lines.extend(CLASSES.iter().map(|&name| (name.to_string(), self.classes[name])));
        for (&(end, name, at), &count) in &self.ends {
            let sequence = if name < 3 { format!("208 mode {name}") } else { name.to_string() };
            lines.push((format!("range: {sequence}, parameter {at}, {end}"), count));
        }
        lines.extend(self.parameters.lines());
        lines.extend(self.streams.lines());
        lines.extend(self.key_line.lines());
        lines.extend(self.lines.lines());
        lines.extend(self.late.lines());
        lines.extend(self.dots.lines());
        lines.extend(self.packs.lines());
        lines.extend(self.short.lines());
        lines.extend(self.unsound.iter().map(|(name, &count)| (format!("unsound: {name}"), count)));
        lines.extend(self.sizes.iter().map(|(name, &count)| (format!("size: {name}"), count)));
        lines
    }
}

/// The bytes that an accepted call reads, each part by itself: closing has no
/// message, a message no bytes that wait, and a pack is many messages.
fn parts(call: &Call, settings: &Settings) -> Vec<Vec<u8>> {
    match call.kind {
        Kind::Pack => {
            let records = reference::records::records(&call.message).expect("an accepted pack is whole");
            records.into_iter().map(|(_, body)| body.to_vec()).collect()
        }
        _ => vec![[waits(settings), &call.message].concat()],
    }
}
