//! What the pieces and closings reached.

use crate::classes::Classes;
use crate::generate::sequences::SECONDS;
use crate::generate::{Call, Kind, SIZES};
use reference::read::{length, Item};
use reference::settings::LONGEST_STREAM;
use reference::stream::waits;
use reference::{sound, Answer, Settings};
use std::collections::BTreeMap;

#[rustfmt::skip]
const CLASSES: &[&str] = &[
    "piece 0", "piece 1", "piece 2", "piece 3", "piece 15", "closing 0", "closing 1", "closing 3",
    "order: piece 1 with 2", "order: piece 1 with 3", "order: piece 1 with 15", "order: piece 2 with 3",
    "order: piece 2 with 15", "order: piece 3 with 15", "order: closing 1 with 3",
    "order: message 1 with 16", "order: message 2 with 16", "order: message 3 with 16",
    "piece empty", "piece empty while bytes wait", "piece empty at the limit", "piece of 4096", "piece of 4097",
    "piece to the limit", "piece one past the limit", "message while the count stands",
    "finished: accepted", "finished: 10", "finished: 11", "finished: 13", "finished: a copy",
    "finished: a mode setting", "still unfinished", "finished, and others wait", "nothing waited, and some wait",
    "first refusal in what waited", "first refusal further on",
    "closing on nothing at all", "closing on nothing that waits", "closing on ESC alone", "closing on 27, 209",
    "closing on 27, 209 from screen 2", "closing on another sequence", "refused while bytes wait",
];

#[derive(Default)]
pub struct Streams {
    classes: Option<Classes>,
    /// left waiting by a piece: by second byte, by number of bytes
    left: BTreeMap<String, u64>,
}

impl Streams {
    pub fn new() -> Streams {
        let mut left = BTreeMap::from([("waits: ESC alone".to_string(), 0)]);
        for &second in SECONDS.iter().filter(|&&second| length(second, None) > Some(2)) {
            left.insert(format!("waits: {second}"), 0);
        }
        for mode in 0..=2 {
            left.insert(format!("waits: 208 with mode byte {mode}"), 0);
        }
        for held in 1..=12 {
            left.insert(format!("waits: {held} bytes"), 0);
        }
        Streams { classes: Some(Classes::new(CLASSES)), left }
    }

    fn classes(&mut self) -> &mut Classes {
        self.classes.as_mut().expect("made by new")
    }

    pub fn call(&mut self, call: &Call, settings: &Settings, answer: &Answer) {
        let refused_waiting = answer.number != 0 && settings.held > 0 && sound(settings);
        self.classes().count_if(refused_waiting, "refused while bytes wait");
        match call.kind {
            Kind::Message => self.message(call, settings, answer),
            Kind::Piece => self.piece(call, settings, answer),
            Kind::Closing => self.closing(call, settings, answer),
            Kind::Short | Kind::Pack | Kind::KeyText(_) | Kind::Opening(_) => {}
        }
    }

    fn message(&mut self, call: &Call, settings: &Settings, answer: &Answer) {
        let classes = self.classes();
        let held = settings.held > 0;
        classes.count_if(held && call.sizes != SIZES, "order: message 1 with 16");
        classes.count_if(held && answer.number == 2, "order: message 2 with 16");
        classes.count_if(held && answer.number == 3, "order: message 3 with 16");
        let stands = answer.number == 0 && settings.count > 0;
        classes.count_if(stands, "message while the count stands");
    }

    fn piece(&mut self, call: &Call, settings: &Settings, answer: &Answer) {
        let classes = self.classes();
        let size = call.message.len();
        let total = settings.count as usize + size;
        let (long, broken, past) = (size > 4096, !sound(settings), total > LONGEST_STREAM);
        let orders = match answer.number {
            0 => ("piece 0", [None; 3]),
            1 => {
                let with = ["order: piece 1 with 2", "order: piece 1 with 3", "order: piece 1 with 15"];
                ("piece 1", [long.then_some(with[0]), broken.then_some(with[1]), past.then_some(with[2])])
            }
            2 => {
                let with = ["order: piece 2 with 3", "order: piece 2 with 15"];
                ("piece 2", [broken.then_some(with[0]), past.then_some(with[1]), None])
            }
            3 => ("piece 3", [past.then_some("order: piece 3 with 15"), None, None]),
            _ => (
                "piece 15",
                [(total == LONGEST_STREAM + 1).then_some("piece one past the limit"), None, None],
            ),
        };
        classes.count(orders.0);
        orders.1.into_iter().flatten().for_each(|class| classes.count(class));
        classes.count_if(size == 4096, "piece of 4096");
        classes.count_if(size == 4097, "piece of 4097");
        if answer.number == 0 {
            self.served_piece(size, total, settings, answer);
        }
    }

    fn served_piece(&mut self, size: usize, total: usize, settings: &Settings, answer: &Answer) {
        let classes = self.classes();
        let full = total == LONGEST_STREAM;
        classes.count_if(size == 0, "piece empty");
        classes.count_if(size == 0 && settings.held > 0, "piece empty while bytes wait");
        classes.count_if(size == 0 && full, "piece empty at the limit");
        classes.count_if(size > 0 && full, "piece to the limit");
        if answer.first != 0 {
            let before = answer.offset < settings.count;
            classes.count_if(before, "first refusal in what waited");
            classes.count_if(!before && settings.count > 0, "first refusal further on");
        }
    }

    fn closing(&mut self, call: &Call, settings: &Settings, answer: &Answer) {
        let classes = self.classes();
        match answer.number {
            0 => classes.count("closing 0"),
            1 => classes.count("closing 1"),
            _ => classes.count("closing 3"),
        }
        classes.count_if(call.sizes != SIZES && !sound(settings), "order: closing 1 with 3");
        if answer.number == 0 {
            classes.count(match waits(settings) {
                [] if settings.count == 0 => "closing on nothing at all",
                [] => "closing on nothing that waits",
                [_] => "closing on ESC alone",
                [_, 209] if settings.selected == 1 => "closing on 27, 209 from screen 2",
                [_, 209] => "closing on 27, 209",
                _ => "closing on another sequence",
            });
        }
    }

    /// The first item of a piece, which finishes what waited.
    pub fn finished(&mut self, item: &Item, settings: &Settings) {
        if settings.held == 0 {
            return;
        }
        self.classes().count(match item {
            Item::Refusal { number: 10, .. } => "finished: 10",
            Item::Refusal { number: 11, .. } => "finished: 11",
            Item::Refusal { .. } => "finished: 13",
            Item::Sequence { second: 80, .. } => "finished: a copy",
            Item::Sequence { second: 208, .. } => "finished: a mode setting",
            _ => "finished: accepted",
        });
    }

    /// What a piece leaves waiting after `read` bytes.
    pub fn waits(&mut self, left: &[u8], read: usize, settings: &Settings) {
        let classes = self.classes();
        if left.is_empty() {
            return;
        }
        let name = match *left {
            [_] => "waits: ESC alone".to_string(),
            [_, second, ..] => format!("waits: {second}"),
            [] => unreachable!(),
        };
        classes.count(match (settings.held, read) {
            (0, _) => "nothing waited, and some wait",
            (_, 0) => "still unfinished",
            _ => "finished, and others wait",
        });
        *self.left.get_mut(&name).unwrap() += 1;
        *self.left.get_mut(&format!("waits: {} bytes", left.len())).unwrap() += 1;
        if let [_, 208, mode, ..] = *left {
            *self.left.get_mut(&format!("waits: 208 with mode byte {mode}")).unwrap() += 1;
        }
    }

    pub fn lines(&self) -> Vec<(String, u64)> {
        let mut lines = self.classes.as_ref().map_or(Vec::new(), Classes::lines);
        lines.extend(self.left.iter().map(|(name, &count)| (name.clone(), count)));
        lines
    }
}
