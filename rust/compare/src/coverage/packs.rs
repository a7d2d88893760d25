//! What the packs reached.

use crate::classes::Classes;
use crate::generate::{Call, SIZES};
use reference::pack::{LONGEST_PACK, MESSAGE};
use reference::records::records;
use reference::settings::LONGEST_MESSAGE;
use reference::{sound, Answer, Settings};

#[rustfmt::skip]
const CLASSES: &[&str] = &[
    "pack 0", "pack 1", "pack 2", "pack 3", "pack 16", "pack 19", "pack 20", "pack 21",
    "order: pack 1 with 19", "order: pack 1 with 20", "order: pack 1 with 21", "order: pack 1 with 3", "order: pack 1 with 16",
    "order: pack 19 with 20", "order: pack 19 with 21", "order: pack 19 with 3", "order: pack 20 with 3", "order: pack 20 with 16",
    "order: pack 20 with an unknown kind before", "order: pack 20 with a long body before", "order: pack 21 with 2", "order: pack 21 with 3",
    "order: pack 21 with 16", "order: pack 2 with 3", "order: pack 2 with 16", "order: pack 3 with 16",
    "pack empty", "empty pack 3", "empty pack 16", "pack of one record", "pack of several records", "pack of more than 20 records",
    "pack of 60000", "pack of 60001", "body of 4096 in a pack", "body of 4097 in a pack", "empty body alone", "empty body among others",
    "head cut after 1", "head cut after 2", "head cut after 3", "body cut", "body of no byte left",
    "kind 0", "kind 2", "kind with a high byte alone", "kind in the first record", "kind in a later record",
    "copies in several records", "13 in the first record", "13 in record 2", "13 in record 3", "13 in a later record",
    "a copy behind a refused one", "first refusal in record 1", "first refusal in a later record", "refusals in several records",
    "first refusal 11 in a later record", "first refusal behind the start of its body",
    "12 before the last record", "209 at a body's end", "mode 3 set in one record, dots in another", "pack while the count stands",
];

pub struct Packs(Classes);

impl Default for Packs {
    fn default() -> Packs {
        Packs(Classes::new(CLASSES))
    }
}

/// What is wrong with a pack, and with what it is sent to.
struct Faults {
    sizes: bool,
    long: bool,
    cut: bool,
    kind: bool,
    body: bool,
    unsound: bool,
    waits: bool,
}

impl Faults {
    fn of(call: &Call, settings: &Settings) -> Faults {
        let pack = &call.message;
        let whole = whole_records(pack);
        Faults {
            sizes: call.sizes != SIZES,
            long: pack.len() > LONGEST_PACK,
            cut: records(pack).is_none(),
            kind: whole.iter().any(|(kind, _)| *kind != MESSAGE),
            body: whole.iter().any(|(_, body)| body.len() > LONGEST_MESSAGE),
            unsound: !sound(settings),
            waits: settings.held > 0,
        }
    }
}

/// The records before one that is cut.
fn whole_records(mut rest: &[u8]) -> Vec<(u16, &[u8])> {
    let mut whole = Vec::new();
    while let Some((head, after)) = rest.split_at_checked(4) {
        let length = usize::from(u16::from_le_bytes([head[0], head[1]]));
        let Some((body, after)) = after.split_at_checked(length) else { break };
        whole.push((u16::from_le_bytes([head[2], head[3]]), body));
        rest = after;
    }
    whole
}

/// The class of a number, and those of the numbers that it goes before.
#[rustfmt::skip]
fn orders(number: u8, empty: bool, f: &Faults) -> (&'static str, Vec<(bool, &'static str)>) {
    match number {
        0 => ("pack 0", vec![(empty, "pack empty")]),
        1 => ("pack 1", vec![
            (f.long, "order: pack 1 with 19"), (f.cut, "order: pack 1 with 20"), (f.kind, "order: pack 1 with 21"),
            (f.unsound, "order: pack 1 with 3"), (f.waits, "order: pack 1 with 16"),
        ]),
        19 => ("pack 19", vec![
            (f.cut, "order: pack 19 with 20"), (f.kind, "order: pack 19 with 21"), (f.unsound, "order: pack 19 with 3"),
        ]),
        20 => ("pack 20", vec![
            (f.unsound, "order: pack 20 with 3"), (f.waits, "order: pack 20 with 16"),
            (f.kind, "order: pack 20 with an unknown kind before"), (f.body, "order: pack 20 with a long body before"),
        ]),
        21 => ("pack 21", vec![
            (f.body, "order: pack 21 with 2"), (f.unsound, "order: pack 21 with 3"), (f.waits, "order: pack 21 with 16"),
        ]),
        2 => ("pack 2", vec![(f.unsound, "order: pack 2 with 3"), (f.waits, "order: pack 2 with 16")]),
        3 => ("pack 3", vec![(f.waits, "order: pack 3 with 16"), (empty, "empty pack 3")]),
        _ => ("pack 16", vec![(empty, "empty pack 16")]),
    }
}

impl Packs {
    pub fn call(&mut self, call: &Call, settings: &Settings, answer: &Answer, record: u32) {
        let faults = Faults::of(call, settings);
        self.numbers(call, answer, &faults);
        match answer.number {
            0 => self.served(call, settings, answer, record),
            20 => self.cut(&call.message),
            21 => self.kinds(&call.message),
            _ => {}
        }
    }

    fn numbers(&mut self, call: &Call, answer: &Answer, faults: &Faults) {
        debug_assert!(!faults.sizes || answer.number == 1);
        let (class, with) = orders(answer.number, call.message.is_empty(), faults);
        self.0.count(class);
        with.iter().for_each(|&(reached, class)| self.0.count_if(reached, class));
        self.0.count_if(call.message.len() == LONGEST_PACK, "pack of 60000");
        self.0.count_if(call.message.len() == LONGEST_PACK + 1, "pack of 60001");
        let bodies = whole_records(&call.message);
        self.0.count_if(bodies.iter().any(|(_, body)| body.len() == 4096), "body of 4096 in a pack");
        self.0.count_if(bodies.iter().any(|(_, body)| body.len() == 4097), "body of 4097 in a pack");
    }

    /// What is left behind the last whole record.
    fn cut(&mut self, pack: &[u8]) {
        let read: usize = whole_records(pack).iter().map(|(_, body)| 4 + body.len()).sum();
        self.0.count(match pack.len() - read {
            1 => "head cut after 1",
            2 => "head cut after 2",
            3 => "head cut after 3",
            4 => "body of no byte left",
            _ => "body cut",
        });
    }

    fn kinds(&mut self, pack: &[u8]) {
        let classes = &mut self.0;
        let whole = whole_records(pack);
        let first = whole.iter().position(|(kind, _)| *kind != MESSAGE);
        classes.count(if first == Some(0) { "kind in the first record" } else { "kind in a later record" });
        let any = |wanted: &dyn Fn(u16) -> bool| whole.iter().any(|(kind, _)| wanted(*kind));
        classes.count_if(any(&|kind| kind == 0), "kind 0");
        classes.count_if(any(&|kind| kind == 2), "kind 2");
        classes.count_if(any(&|kind| kind & 255 == 1 && kind != 1), "kind with a high byte alone");
    }

    fn served(&mut self, call: &Call, settings: &Settings, answer: &Answer, record: u32) {
        let classes = &mut self.0;
        let bodies = whole_records(&call.message);
        match bodies.len() {
            0 => {}
            1 => classes.count("pack of one record"),
            2..=20 => classes.count("pack of several records"),
            _ => classes.count("pack of more than 20 records"),
        }
        let empty = bodies.iter().filter(|(_, body)| body.is_empty()).count();
        classes.count_if(empty == 1 && bodies.len() == 1, "empty body alone");
        classes.count_if(empty > 0 && empty < bodies.len(), "empty body among others");
        classes.count_if(settings.count > 0 && !bodies.is_empty(), "pack while the count stands");
        let front = &bodies[..bodies.len().max(1) - 1];
        let ends = |end: &[u8]| front.iter().any(|(_, body)| body.ends_with(end));
        classes.count_if(ends(&[27]) && answer.refused > 0, "12 before the last record");
        classes.count_if(ends(&[27, 209]), "209 at a body's end");
        let mode = front.iter().position(|(_, body)| body.ends_with(&[27, 208, 3]));
        let dots = |(_, body): &(u16, &[u8])| body.windows(2).any(|two| two == [27, 198] || two == [27, 80]);
        let later = mode.is_some_and(|at| bodies[at + 1..].iter().any(dots));
        classes.count_if(later, "mode 3 set in one record, dots in another");
        classes.count_if(answer.printed > 656 && bodies.len() > 1, "copies in several records");
        self.refusals(answer, record, &bodies);
    }

    fn refusals(&mut self, answer: &Answer, record: u32, bodies: &[(u16, &[u8])]) {
        let classes = &mut self.0;
        if answer.first == 0 {
            return;
        }
        classes.count(if record == 1 {
            "first refusal in record 1"
        } else {
            "first refusal in a later record"
        });
        classes.count_if(record > 1 && answer.first == 11, "first refusal 11 in a later record");
        classes.count_if(record > 1 && answer.offset > 0, "first refusal behind the start of its body");
        classes.count_if(answer.refused > 1 && bodies.len() > 1, "refusals in several records");
        if answer.first == 13 {
            classes.count(match record {
                1 => "13 in the first record",
                2 => "13 in record 2",
                3 => "13 in record 3",
                _ => "13 in a later record",
            });
            classes.count_if(answer.printed > 0 && answer.refused > 1, "a copy behind a refused one");
        }
    }

    pub fn lines(&self) -> Vec<(String, u64)> {
        self.0.lines()
    }
}
