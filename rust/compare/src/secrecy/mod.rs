//! Document 02, P8: "take two runs of the same calls, .. secret on, equal at the start
//! but for the bytes of cells, layer and key texts, whose messages, pieces and packs are
//! equal but for the values of bytes read as printed in both, and key calls but for a
//! text's codes. If no ESC 125 is read as a sequence and no opening is called, the shown
//! screen, the printer bytes and the answers are equal after every call."
//!
//! Both runs are made on one implementation; no other stands beside it.
//!
//! - here: the runs, and what is seen of a call
//! - `exchange`: what is sent in the second run
//! - `reached`: counts what the runs reached

mod exchange;
mod reached;

pub use reached::classes;

use crate::classes::Classes;
use crate::generate::{self, Call, Kind, SIZES};
use crate::play::{made, resized, same, Plan, Side};
use crate::random::Random;
use crate::{Functions, Terminal, BROKEN};
use exchange::Exchanged;
use reached::{count, count_end, count_start};
use reference::settings::{BLANK, OPENING};
use reference::{sound, Answer, Settings};

/// Broken copies that let something be seen, by their names.
#[rustfmt::skip]
pub const LEAKS: &[&str] = &[
    "layer-painted-over-secret", "key-line-seen-in-secret", "secret-does-not-hide-text-in-mode-3",
    "one-place-seen-in-secret", "copy-of-what-secret-hides", "mode-1-ends-secret", "blanks-spared-by-a-short-message", "secret-not-blanked", "tracking-by-a-cell", "37-judged-by-its-code", "blank-runs-on-nowhere",
    "key-text-answered-by-its-codes", "message-counted-by-the-layer",
];

pub fn leaks() -> impl Iterator<Item = Functions> {
    BROKEN.iter().copied().filter(|broken| LEAKS.contains(&broken.name))
}

/// What was seen, and at which pair of calls.
#[derive(Debug)]
pub struct Leak {
    pub calls: u64,
    pub what: String,
}

/// Pairs of random lists, until as many pairs of calls as planned are made; how many.
pub fn run(terminal: &mut dyn Terminal, classes: &mut Classes, plan: &Plan) -> Result<u64, Leak> {
    let (mut list, mut calls) = (plan.list, 0);
    while calls < plan.calls {
        let mut random = Random::of_list(plan.seed, list);
        let most = (random.between(1, 24) as u64).min(plan.calls - calls);
        let sides = start(&mut random);
        count_start(classes, &sides);
        let shorts = random.one_in(3);
        let mut pair = Pair { terminal: &mut *terminal, sides, random, line: Vec::new(), shorts };
        for call in 1..=most {
            pair.one_call(classes).map_err(|what| {
                let what = format!("{what}\nagain: --seed {} --list {list} --calls {call}", plan.seed);
                Leak { calls: calls + call, what }
            })?;
        }
        count_end(classes, &pair.sides);
        calls += most;
        list += 1;
    }
    Ok(calls)
}

/// Sound settings with secret on, any stores, and the same again with other cells, another
/// layer and other key texts. In a half of them the shown screen is stale.
fn start(random: &mut Random) -> [Side; 2] {
    let settings = if random.one_in(3) { OPENING } else { generate::settings(random) };
    let settings = Settings { secret: 1, ..settings };
    let mut sides = [0, 1].map(|_| {
        let mut side = Side { settings, stores: SIZES.map(|size| vec![0; size]) };
        let [cells, layer, shown, dots] = &mut side.stores;
        generate::fill_stores(random, cells, layer, shown, dots);
        random.fill(&mut side.settings.texts);
        side
    });
    let [first, second] = &mut sides;
    if random.one_in(2) {
        first.stores[2].fill(BLANK);
    }
    second.stores[2].clone_from(&first.stores[2]);
    second.stores[3].clone_from(&first.stores[3]);
    sides
}

struct Pair<'a> {
    terminal: &'a mut dyn Terminal,
    sides: [Side; 2],
    random: Random,
    /// what is still to come of the first run's stream
    line: Vec<u8>,
    /// most calls are short messages
    shorts: bool,
}

/// What is seen of a call: beside the shown screen, the printer bytes and the answer, with a
/// pack's record, the dots, which secret does not hide, and the settings but for the codes
/// of the key texts.
struct Seen {
    answer: Answer,
    record: u32,
    printed: Vec<u8>,
    stores: [Vec<u8>; 4],
    settings: Settings,
}

impl Pair<'_> {
    /// One call of each run. A refused one reads nothing as printed, so its bytes are the
    /// same in both.
    fn one_call(&mut self, classes: &mut Classes) -> Result<(), String> {
        let settings = self.sides[0].settings;
        let mut call = generate::call(&mut self.random, &settings, &mut self.line, self.shorts);
        // where a fault leaves the settings sound, the call is given those that stand
        call.settings = call.settings.filter(|(_, broken)| !sound(broken));
        let roles = exchange::roles(&call, &settings);
        exchange::keep_secret(&roles, &mut call.message);
        let first = self.play(0, &call);
        let served = first.answer.number == 0;
        let mut other = Call { message: call.message.clone(), ..call };
        exchange::exchange(&mut self.random, &roles, served, &mut other.message);
        let second = self.play(1, &other);
        same_seen(&first, &second).map_err(|what| {
            let Call { kind, room, message, .. } = &call;
            format!("{what}\n{kind:?}, room {room}, {settings:?}\n{message:?}\n{:?}", other.message)
        })?;
        let bytes = Exchanged { roles: &roles, sent: [&call.message, &other.message] };
        count(classes, &call, &settings, &first, &bytes);
        if served {
            match call.kind {
                Kind::Piece => drop(self.line.drain(..call.message.len())),
                Kind::Closing => self.line.clear(),
                _ => {}
            }
        }
        Ok(())
    }

    /// A call of one run, with its own settings and stores, or with the fault or the sizes
    /// that the call is to have.
    fn play(&mut self, number: usize, call: &Call) -> Seen {
        let side = &mut self.sides[number];
        let texts = side.settings.texts;
        let given = call.settings.map_or(side.settings, |(_, broken)| Settings { texts, ..broken });
        let mut printer = vec![0; call.room];
        self.random.fill(&mut printer);
        let mut stores = resized(&side.stores, call.sizes);
        let (after, answer, record) = made(self.terminal, call, given, &mut stores, &mut printer);
        let printed = self.terminal.printed(&printer, answer.printed).to_vec();
        if answer.number == 0 {
            *side = Side { settings: after, stores: stores.clone() };
        }
        Seen { answer, record, printed, stores, settings: after }
    }
}

fn same_seen(first: &Seen, second: &Seen) -> Result<(), String> {
    if (first.answer, first.record) != (second.answer, second.record) {
        let [one, other] = [first, second].map(|seen| (seen.answer, seen.record));
        return Err(format!("seen: the answer, {one:?} and {other:?}"));
    }
    same("seen: printer", &first.printed, &second.printed)?;
    same("seen: shown screen", &first.stores[2], &second.stores[2])?;
    same("seen: dots", &first.stores[3], &second.stores[3])?;
    let [one, other] = [first, second].map(|seen| Settings { texts: [BLANK; 80], ..seen.settings });
    if one != other {
        return Err(format!("seen: settings, {one:?} and {other:?}"));
    }
    Ok(())
}
