//! Plays the lists on two implementations and looks for a difference.

use crate::coverage::Coverage;
use crate::generate::late::no_rule;
use crate::generate::{self, Call, Kind, SIZES};
use crate::random::Random;
use crate::short::{Moment, Served};
use crate::Terminal;
use reference::settings::OPENING;
use reference::{Answer, Settings};

pub struct Plan {
    pub seed: u64,
    /// opening and message calls to play
    pub calls: u64,
    /// number of the list to begin with
    pub list: u64,
    /// print a line every so many calls; 0 for none
    pub progress: u64,
}

/// What is needed to see a difference again.
pub struct Difference {
    pub seed: u64,
    pub list: u64,
    /// its number in the list, from 1
    pub call: usize,
    /// calls played in all, this one included
    pub calls: u64,
    pub what: String,
    pub kind: Kind,
    pub settings: Settings,
    pub room: usize,
    pub message: Vec<u8>,
}

impl std::fmt::Display for Difference {
    fn fmt(&self, f: &mut std::fmt::Formatter) -> std::fmt::Result {
        writeln!(f, "difference in {}", self.what)?;
        writeln!(f, "seed {} list {} call {}", self.seed, self.list, self.call)?;
        writeln!(f, "again: --seed {} --list {} --calls {}", self.seed, self.list, self.call)?;
        writeln!(f, "settings {:?}", self.settings)?;
        writeln!(f, "printer room {}", self.room)?;
        write!(f, "{:?} {:?}", self.kind, self.message)
    }
}

/// One side's stores and settings.
#[derive(Clone)]
pub(crate) struct Side {
    pub(crate) settings: Settings,
    pub(crate) stores: [Vec<u8>; 4],
}

struct Game<'a> {
    left: &'a mut dyn Terminal,
    right: &'a mut dyn Terminal,
    coverage: Option<&'a mut Coverage>,
    sides: [Side; 2],
    random: Random,
    /// what is still to come of the stream
    line: Vec<u8>,
    /// a list of short messages mostly, with a glass that is spoilt now and then
    shorts: bool,
    calls: u64,
}

/// A difference within a list: in what, and the call's kind, settings,
/// printer room and message.
type Found = Result<(), Box<(String, Kind, Settings, usize, Vec<u8>)>>;

/// Plays lists until the planned number of calls is reached.
pub fn run(
    left: &mut dyn Terminal,
    right: &mut dyn Terminal,
    coverage: Option<&mut Coverage>,
    plan: &Plan,
) -> Result<u64, Box<Difference>> {
    let side = Side { settings: OPENING, stores: SIZES.map(|size| vec![0; size]) };
    let sides = [side.clone(), side];
    let random = Random::of_list(plan.seed, 0);
    let mut game = Game { left, right, coverage, sides, random, line: Vec::new(), shorts: false, calls: 0 };
    let mut list = plan.list;
    let mut next_line = plan.progress;
    while game.calls < plan.calls {
        game.list(plan, list)?;
        list += 1;
        if plan.progress > 0 && game.calls >= next_line {
            println!("{} calls, {} lists", game.calls, list - plan.list);
            next_line += plan.progress;
        }
    }
    Ok(game.calls)
}

impl Game<'_> {
    fn list(&mut self, plan: &Plan, list: u64) -> Result<(), Box<Difference>> {
        self.random = Random::of_list(plan.seed, list);
        self.line.clear();
        self.shorts = self.random.one_in(6);
        let before = self.calls;
        let found = self.start().and_then(|()| {
            for _ in 0..self.random.between(1, 24) {
                if self.calls >= plan.calls {
                    break;
                }
                self.one_call()?;
            }
            Ok(())
        });
        let call = (self.calls - before) as usize;
        found.map_err(|found| {
            let (what, kind, settings, room, message) = *found;
            let (seed, calls) = (plan.seed, self.calls);
            Box::new(Difference { seed, list, call, calls, what, kind, settings, room, message })
        })
    }

    /// From an opening, or from sound settings with any bytes in the stores.
    fn start(&mut self) -> Found {
        let Game { sides: [left, right], random, .. } = self;
        let [cells, layer, shown, dots] = &mut left.stores;
        generate::fill_stores(random, cells, layer, shown, dots);
        left.settings = generate::settings(random);
        right.clone_from(left);
        if random.one_in(2) {
            return Ok(());
        }
        let rule = self.random.pick(&[1, 2]);
        if self.random.one_in(8) {
            let sizes = generate::wrong_sizes(&mut self.random);
            let rule = if self.random.one_in(2) { no_rule(&mut self.random) } else { rule };
            self.opening_call(rule, sizes)?;
        }
        if self.random.one_in(8) {
            let rule = no_rule(&mut self.random);
            self.opening_call(rule, SIZES)?;
        }
        self.opening_call(rule, SIZES)
    }

    fn opening_call(&mut self, rule: usize, sizes: [usize; 4]) -> Found {
        self.calls += 1;
        let mut given = self.sides.clone().map(|side| resized(&side.stores, sizes));
        let [left, right] = &mut given;
        let (settings, number) = opening(self.left, rule, left);
        let other = opening(self.right, rule, right);
        let fail = |what: &str| {
            let what = format!("opening: {what}");
            Err(Box::new((what, Kind::Opening(rule), settings, 0, Vec::new())))
        };
        if (settings, number) != other {
            return fail(&format!("settings or number {number} {}", other.1));
        }
        if given[0] != given[1] {
            return fail("stores");
        }
        if let Some(coverage) = &mut self.coverage {
            coverage.opening(rule, sizes, number);
        }
        if number == 0 {
            self.sides = given.map(|stores| Side { settings, stores });
        }
        Ok(())
    }

    /// A message, a short one, a piece, a closing, a pack or a key text.
    fn one_call(&mut self) -> Found {
        let Game { sides, random, line, shorts, .. } = self;
        let call = generate::call(random, &sides[0].settings, line, *shorts);
        self.calls += 1;
        let settings = call.settings.map_or(self.sides[0].settings, |(_, broken)| broken);
        let mut printer = vec![0; call.room];
        self.random.fill(&mut printer);
        if self.shorts && self.random.one_in(2) {
            self.spoil();
        }
        if let Some(coverage) = &mut self.coverage {
            coverage.remember(&self.sides[0].stores);
        }
        let found = if call.sizes == SIZES {
            let mut given = self.sides.each_mut().map(|side| std::mem::take(&mut side.stores));
            let found = self.both(&call, settings, &mut given, printer);
            let [left, right] = given;
            (self.sides[0].stores, self.sides[1].stores) = (left, right);
            found
        } else {
            let mut given = self.sides.clone().map(|side| resized(&side.stores, call.sizes));
            self.both(&call, settings, &mut given, printer)
        };
        found.map_err(|what| Box::new((what, call.kind, settings, call.room, call.message)))
    }

    /// Any bytes on the glass: what is painted of it must not hang on what it showed.
    fn spoil(&mut self) {
        let Game { sides: [left, right], random, .. } = self;
        random.fill(&mut left.stores[2]);
        right.stores[2].clone_from(&left.stores[2]);
    }

    /// Makes the call on both sides and compares everything it leaves.
    fn both(
        &mut self,
        call: &Call,
        settings: Settings,
        given: &mut [[Vec<u8>; 4]; 2],
        mut printer: Vec<u8>,
    ) -> Result<(), String> {
        let mut other_printer = printer.clone();
        let [left, right] = given;
        let short = (call.kind == Kind::Short).then(|| (left.clone(), printer.clone()));
        let answers = [
            made(self.left, call, settings, left, &mut printer),
            made(self.right, call, settings, right, &mut other_printer),
        ];
        let (after, answer, record) = answers[0];
        same_answers(&answers)?;
        for (store, name) in generate::STORE_NAMES.iter().enumerate() {
            same(name, &left[store], &right[store])?;
        }
        same("printer", &printer, &other_printer)?;
        if let Some((stores, buffer)) = short.filter(|_| answer.number == 0) {
            let before = Moment { settings: &settings, stores: &stores };
            let after = Moment { settings: &after, stores: left };
            let (message, buffer, printer) = (&call.message[..], &buffer[..], &printer[..]);
            Served { message, buffer, before, after, answer, printer }.keeps_the_sentences()?;
        }
        self.printer_call(&printer, &other_printer, answer.printed)?;
        if let Some(coverage) = &mut self.coverage {
            coverage.call(call, &settings, &answer, record);
        }
        if answer.number == 0 {
            self.go_on(call, after);
        }
        Ok(())
    }

    /// What a served call leaves for the next.
    fn go_on(&mut self, call: &Call, after: Settings) {
        self.sides[0].settings = after;
        self.sides[1].settings = after;
        match call.kind {
            Kind::Message | Kind::Short | Kind::Pack | Kind::KeyText(_) | Kind::Opening(_) => {}
            Kind::Piece => drop(self.line.drain(..call.message.len())),
            Kind::Closing => self.line.clear(),
        }
    }

    /// The printer call: the copies, and a count at or beyond the end.
    fn printer_call(&mut self, left: &[u8], right: &[u8], copied: usize) -> Result<(), String> {
        let length = left.len();
        let any = self.random.below(length + 2);
        let other = self.random.pick(&[0, length, length + 1, usize::MAX, any]);
        for count in [copied, other] {
            let parts = [self.left.printed(left, count), self.right.printed(right, count)];
            same("printer part", parts[0], parts[1])?;
            // "that first part of the buffer itself"
            if !parts[1].is_empty() && parts[1].as_ptr() != right.as_ptr() {
                return Err(format!("printer part of {count}: not the buffer itself"));
            }
        }
        if let Some(coverage) = &mut self.coverage {
            coverage.printer_call(length, other);
        }
        Ok(())
    }
}

fn opening(terminal: &mut dyn Terminal, rule: usize, stores: &mut [Vec<u8>; 4]) -> (Settings, u8) {
    let [cells, layer, shown, dots] = stores;
    terminal.opening(rule, cells, layer, shown, dots)
}

/// Makes a call; a record only a pack gives.
pub(crate) fn made(
    terminal: &mut dyn Terminal,
    call: &Call,
    settings: Settings,
    stores: &mut [Vec<u8>; 4],
    printer: &mut [u8],
) -> (Settings, Answer, u32) {
    let [cells, layer, shown, dots] = stores;
    let (after, answer) = match call.kind {
        Kind::Message => terminal.message(settings, &call.message, cells, layer, shown, dots, printer),
        Kind::Short => terminal.message_short(settings, &call.message, cells, layer, shown, dots, printer),
        Kind::Piece => terminal.piece(settings, &call.message, cells, layer, shown, dots, printer),
        Kind::Closing => terminal.closing(settings, cells, layer, shown, dots),
        Kind::Pack => return terminal.pack(settings, &call.message, cells, layer, shown, dots, printer),
        Kind::KeyText(number) => terminal.key_text(settings, number, &call.message),
        Kind::Opening(rule) => {
            let (settings, number) = terminal.opening(rule, cells, layer, shown, dots);
            (settings, Answer { number, ..Answer::default() })
        }
    };
    (after, answer, 0)
}

/// Settings, answer and record of both sides.
fn same_answers([left, right]: &[(Settings, Answer, u32); 2]) -> Result<(), String> {
    if left.1 != right.1 {
        return Err(format!("answer: {:?} and {:?}", left.1, right.1));
    }
    if left.2 != right.2 {
        return Err(format!("record: {} and {}", left.2, right.2));
    }
    if left.0 != right.0 {
        return Err(format!("settings after: {:?} and {:?}", left.0, right.0));
    }
    Ok(())
}

pub(crate) fn resized(stores: &[Vec<u8>; 4], sizes: [usize; 4]) -> [Vec<u8>; 4] {
    let mut stores = stores.clone();
    for (store, size) in stores.iter_mut().zip(sizes) {
        store.resize(size, 99);
    }
    stores
}

pub(crate) fn same(name: &str, left: &[u8], right: &[u8]) -> Result<(), String> {
    if left == right {
        return Ok(());
    }
    let at = left.iter().zip(right).position(|(one, other)| one != other);
    match at {
        Some(at) => Err(format!("{name} byte {at}: {} and {}", left[at], right[at])),
        None => Err(format!("{name} length: {} and {}", left.len(), right.len())),
    }
}
