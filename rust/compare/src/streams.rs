//! "However it is cut, a closed stream .. gives, over its calls together, the
//! .. counts, settings, cells, layer, printer bytes and final picture of one
//! uncut reading, where no ESC P met refusal 13 in either." The uncut reading
//! is the reference's; the stream is that of the implementation under test.

use crate::classes::Classes;
use crate::generate::{self, streams::cut, SIZES};
use crate::play::Plan;
use crate::random::Random;
use crate::Terminal;
use reference::settings::OPENING;
use reference::{Answer, Settings};

#[rustfmt::skip]
pub const CLASSES: &[&str] = &[
    "empty stream", "no piece at all", "one piece", "several pieces", "pieces of one byte", "an empty piece",
    "a piece ends inside a sequence", "a piece ends after 27, 209", "closed on 27, 209", "closed by 12",
    "longer than a message", "a refusal", "a refusal in a later piece", "copies in several pieces", "scarce room and a refusal: nothing said",
    "refused between: 1", "refused between: 2", "refused between: 3", "refused between: 16", "refused between: 17", "refused between: 20",
    "refused between: 16 of a short message",
];

/// What stands, and what came of all calls together.
#[derive(Clone)]
struct Run {
    settings: Settings,
    stores: [Vec<u8>; 4],
    printed: Vec<u8>,
    total: Answer,
}

impl Run {
    /// Adds the answer of a call, and its printer bytes.
    fn add(&mut self, settings: Settings, answer: &Answer, printer: &[u8]) {
        self.settings = settings;
        let total = &mut self.total;
        total.taken += answer.taken;
        total.accepted += answer.accepted;
        total.refused += answer.refused;
        total.printed += answer.printed;
        if total.first == 0 {
            (total.first, total.offset, total.parameter) = (answer.first, answer.offset, answer.parameter);
        }
        self.printed.extend_from_slice(&printer[..answer.printed]);
    }
}

/// Random streams, each cut at random; how many, or what was found.
pub fn run(terminal: &mut dyn Terminal, classes: &mut Classes, plan: &Plan) -> Result<u64, String> {
    for list in plan.list..plan.list + plan.calls {
        check(terminal, &mut Random::of_list(plan.seed, list), classes)
            .map_err(|what| format!("{what}\nagain: --seed {} --list {list} --calls 1", plan.seed))?;
    }
    Ok(plan.calls)
}

/// Classes of a run, all at 0.
pub fn classes() -> Classes {
    Classes::new(CLASSES)
}

/// Sound settings before a stream, any stores, and nothing printed.
fn start(random: &mut Random) -> Run {
    let settings = Settings { waiting: [0; 12], held: 0, count: 0, ..generate::settings(random) };
    let settings = if random.one_in(3) { OPENING } else { settings };
    let mut stores = SIZES.map(|size| vec![0; size]);
    let [cells, layer, shown, dots] = &mut stores;
    generate::fill_stores(random, cells, layer, shown, dots);
    Run { settings, stores, printed: Vec::new(), total: Answer::default() }
}

fn check(terminal: &mut dyn Terminal, random: &mut Random, classes: &mut Classes) -> Result<(), String> {
    let begin = start(random);
    let mut line = Vec::new();
    for _ in 0..random.below(4) {
        line.extend(generate::message(random, &begin.settings));
    }
    let uncut = one_reading(&line, begin.clone());
    let pieces = pieces(random, &line);
    let mut stream = Stream { terminal, run: begin, maybe_13: false };
    stream.play(random, &pieces, classes)?;
    let Stream { run, maybe_13, .. } = stream;
    count(&line, &pieces, &run, classes);
    if maybe_13 {
        classes.count("scarce room and a refusal: nothing said");
        return Ok(());
    }
    same(&uncut, &run)
}

fn one_reading(line: &[u8], mut run: Run) -> Run {
    let mut printer = vec![0; room(line)];
    let [cells, layer, shown, dots] = &mut run.stores;
    let (after, answer) =
        reference::calls::uncut(run.settings, line, cells, layer, shown, dots, &mut printer);
    run.add(after, &answer, &printer);
    run
}

/// Enough for every ESC P, in mode 3 too.
fn room(line: &[u8]) -> usize {
    3840 * line.windows(2).filter(|pair| pair == &[27, 80]).count()
}

/// The line cut up, each piece short enough.
fn pieces<'a>(random: &mut Random, mut line: &'a [u8]) -> Vec<&'a [u8]> {
    let mut pieces = Vec::new();
    let single = random.one_in(6);
    while !line.is_empty() || (random.one_in(4) && pieces.len() < 3) {
        let length = if single { 1 } else { cut(random, line) };
        let (piece, rest) = line.split_at(length.min(line.len()).min(4096));
        pieces.push(piece);
        line = rest;
    }
    pieces
}

struct Stream<'a> {
    terminal: &'a mut dyn Terminal,
    run: Run,
    maybe_13: bool,
}

impl Stream<'_> {
    fn play(&mut self, random: &mut Random, pieces: &[&[u8]], classes: &mut Classes) -> Result<(), String> {
        // seldom too little, so that 13 is met
        let scarce = random.one_in(8);
        for piece in pieces {
            let enough = 3840 + room(piece);
            let little = random.pick(&[700, 4000]);
            let mut printer = vec![0; if scarce { random.below(little) } else { enough }];
            let [cells, layer, shown, dots] = &mut self.run.stores;
            let (after, answer) =
                self.terminal.piece(self.run.settings, piece, cells, layer, shown, dots, &mut printer);
            self.add(after, &answer, &printer)?;
            // which refusals these are the answer does not say
            self.maybe_13 |= scarce && answer.refused > 0;
            if random.one_in(5) {
                self.refused_call(random, classes)?;
            }
        }
        let [cells, layer, shown, dots] = &mut self.run.stores;
        let (after, answer) = self.terminal.closing(self.run.settings, cells, layer, shown, dots);
        classes.count_if(answer.accepted == 1, "closed on 27, 209");
        classes.count_if(answer.first == 12, "closed by 12");
        self.add(after, &answer, &[])
    }

    fn add(&mut self, after: Settings, answer: &Answer, printer: &[u8]) -> Result<(), String> {
        if answer.number != 0 {
            return Err(format!("a call of the stream is refused by {}", answer.number));
        }
        self.run.add(after, answer, printer);
        Ok(())
    }

    /// A call that has to be refused, and so to change nothing.
    fn refused_call(&mut self, random: &mut Random, classes: &mut Classes) -> Result<(), String> {
        let before = self.run.clone();
        let Some((given, (after, answer), class)) = self.refusing(random) else {
            return Ok(());
        };
        classes.count(class);
        let expected = Answer { number: answer.number, ..Answer::default() };
        let kept = after == given && self.run.stores == before.stores;
        if answer.number == 0 || answer != expected || !kept {
            return Err(format!("{class}: {answer:?}, or something changed"));
        }
        Ok(())
    }

    /// The settings given to such a call, what it returned, and its class; none where
    /// no byte waits and it would be served.
    fn refusing(&mut self, random: &mut Random) -> Option<(Settings, (Settings, Answer), &'static str)> {
        let Run { settings, stores: [cells, layer, shown, dots], .. } = &mut self.run;
        let (terminal, settings) = (&mut *self.terminal, *settings);
        let unsound = Settings { step: 0, ..settings };
        let (given, returned, class) = match random.below(7) {
            0 => {
                let closed = terminal.closing(settings, &mut cells[1..], layer, shown, dots);
                (settings, closed, "refused between: 1")
            }
            1 => {
                let piece = terminal.piece(settings, &[65; 4097], cells, layer, shown, dots, &mut []);
                (settings, piece, "refused between: 2")
            }
            2 => {
                let message = terminal.message(unsound, &[65], cells, layer, shown, dots, &mut []);
                (unsound, message, "refused between: 3")
            }
            3 => (settings, terminal.key_text(settings, 0, &[65; 8]), "refused between: 17"),
            4 => {
                let cut = terminal.pack(settings, &[65], cells, layer, shown, dots, &mut []);
                (settings, (cut.0, cut.1), "refused between: 20")
            }
            _ if settings.held == 0 => return None,
            5 => {
                let short = terminal.message_short(settings, &[65], cells, layer, shown, dots, &mut []);
                (settings, short, "refused between: 16 of a short message")
            }
            _ => {
                let message = terminal.message(settings, &[65], cells, layer, shown, dots, &mut []);
                (settings, message, "refused between: 16")
            }
        };
        Some((given, returned, class))
    }
}

fn same(uncut: &Run, stream: &Run) -> Result<(), String> {
    if uncut.total != stream.total {
        return Err(format!("uncut {:?}\nstream {:?}", uncut.total, stream.total));
    }
    if uncut.settings != stream.settings {
        return Err(format!("uncut {:?}\nstream {:?}", uncut.settings, stream.settings));
    }
    if uncut.printed != stream.printed {
        return Err("printer bytes".to_string());
    }
    for (store, name) in generate::STORE_NAMES.iter().enumerate() {
        if uncut.stores[store] != stream.stores[store] {
            return Err(name.to_string());
        }
    }
    Ok(())
}

fn count(line: &[u8], pieces: &[&[u8]], run: &Run, classes: &mut Classes) {
    classes.count_if(line.is_empty(), "empty stream");
    classes.count_if(pieces.is_empty(), "no piece at all");
    classes.count_if(pieces.len() == 1, "one piece");
    classes.count_if(pieces.len() > 1, "several pieces");
    let single = pieces.len() > 1 && pieces.iter().all(|piece| piece.len() == 1);
    classes.count_if(single, "pieces of one byte");
    classes.count_if(pieces.iter().any(|piece| piece.is_empty()), "an empty piece");
    let ends = |end: &[u8]| pieces.iter().any(|piece| piece.ends_with(end));
    classes.count_if(ends(&[27]), "a piece ends inside a sequence");
    classes.count_if(ends(&[27, 209]), "a piece ends after 27, 209");
    classes.count_if(line.len() > 4096, "longer than a message");
    let first = pieces.first().map_or(0, |piece| piece.len());
    classes.count_if(run.total.first != 0, "a refusal");
    classes.count_if(run.total.offset as usize > first, "a refusal in a later piece");
    classes.count_if(run.total.printed > 656 && pieces.len() > 2, "copies in several pieces");
}
