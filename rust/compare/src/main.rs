//! `compare [--calls N] [--seed S] [--list L]`: the reference against the
//! tuned version on random lists of calls; with `--screens` on pairs of
//! screens, with `--traces` on traces of keys, with `--writes` on sequences
//! written and read back. With `--streams` closed streams of both against one
//! uncut reading, with `--secrecy` pairs of runs of each in secret mode.
//! `compare --breaks`: how soon each broken copy is found.

use compare::play::{run, Plan};
use compare::report::{
    command_line, compare, compare_screens, compare_secrecy, compare_streams, compare_traces, compare_writes,
    Options, Subject,
};
use compare::{screens, secrecy, traces, writes, Functions, Terminal};
use compare::{BROKEN, BROKEN_SCREENS, BROKEN_TRACES, BROKEN_WRITES, REFERENCE, TUNED};
use reference::{Answer, Settings};
use std::panic::{catch_unwind, AssertUnwindSafe};
use std::process::ExitCode;

fn main() -> ExitCode {
    let Some(options) = command_line() else {
        eprintln!(
            "usage: compare [--calls N] [--seed S] [--list L] [--streams | --secrecy | --screens | --traces | --writes] [--breaks]"
        );
        return ExitCode::from(2);
    };
    let good = if options.breaks { breaks(&options.plan) } else { versions(&options) };
    if good {
        ExitCode::SUCCESS
    } else {
        ExitCode::FAILURE
    }
}

/// The reference against the tuned version.
fn versions(options: &Options) -> bool {
    match options.subject {
        Subject::Lists => compare(&mut { REFERENCE }, &mut { TUNED }, options),
        Subject::Streams => {
            compare_streams(&mut { REFERENCE }, options) && compare_streams(&mut { TUNED }, options)
        }
        Subject::Secrecy => {
            compare_secrecy(&mut { REFERENCE }, options) && compare_secrecy(&mut { TUNED }, options)
        }
        Subject::Screens => compare_screens(&mut { screens::REFERENCE }, &mut { screens::TUNED }, options),
        Subject::Traces => compare_traces(&mut { traces::REFERENCE }, &mut { traces::TUNED }, options),
        Subject::Writes => {
            compare_writes(&mut { writes::REFERENCE }, &mut { writes::TUNED }, &mut { TUNED }, options)
        }
    }
}

/// A broken copy may run out of its stores; that is a difference too.
struct Guarded(Functions);

impl Terminal for Guarded {
    fn name(&self) -> &str {
        self.0.name
    }

    fn opening(
        &mut self,
        rule: usize,
        cells: &mut [u8],
        layer: &mut [u8],
        shown: &mut [u8],
        dots: &mut [u8],
    ) -> (Settings, u8) {
        self.0.opening(rule, cells, layer, shown, dots)
    }

    fn message(
        &mut self,
        settings: Settings,
        message: &[u8],
        cells: &mut [u8],
        layer: &mut [u8],
        shown: &mut [u8],
        dots: &mut [u8],
        printer: &mut [u8],
    ) -> (Settings, Answer) {
        guarded(settings, || self.0.message(settings, message, cells, layer, shown, dots, printer))
    }

    fn message_short(
        &mut self,
        settings: Settings,
        message: &[u8],
        cells: &mut [u8],
        layer: &mut [u8],
        shown: &mut [u8],
        dots: &mut [u8],
        printer: &mut [u8],
    ) -> (Settings, Answer) {
        guarded(settings, || self.0.message_short(settings, message, cells, layer, shown, dots, printer))
    }

    fn piece(
        &mut self,
        settings: Settings,
        piece: &[u8],
        cells: &mut [u8],
        layer: &mut [u8],
        shown: &mut [u8],
        dots: &mut [u8],
        printer: &mut [u8],
    ) -> (Settings, Answer) {
        guarded(settings, || self.0.piece(settings, piece, cells, layer, shown, dots, printer))
    }

    fn closing(
        &mut self,
        settings: Settings,
        cells: &mut [u8],
        layer: &mut [u8],
        shown: &mut [u8],
        dots: &mut [u8],
    ) -> (Settings, Answer) {
        guarded(settings, || self.0.closing(settings, cells, layer, shown, dots))
    }

    fn pack(
        &mut self,
        settings: Settings,
        pack: &[u8],
        cells: &mut [u8],
        layer: &mut [u8],
        shown: &mut [u8],
        dots: &mut [u8],
        printer: &mut [u8],
    ) -> (Settings, Answer, u32) {
        let call = || self.0.pack(settings, pack, cells, layer, shown, dots, printer);
        let fallen = (settings, Answer { number: 255, ..Answer::default() }, 0);
        catch_unwind(AssertUnwindSafe(call)).unwrap_or(fallen)
    }

    fn key_text(&mut self, settings: Settings, number: usize, text: &[u8]) -> (Settings, Answer) {
        guarded(settings, || self.0.key_text(settings, number, text))
    }

    fn printed<'a>(&mut self, buffer: &'a [u8], count: usize) -> &'a [u8] {
        self.0.printed(buffer, count)
    }
}

/// A call, or a number that no call gives if it falls.
fn guarded(settings: Settings, call: impl FnOnce() -> (Settings, Answer)) -> (Settings, Answer) {
    let fallen = (settings, Answer { number: 255, ..Answer::default() });
    catch_unwind(AssertUnwindSafe(call)).unwrap_or(fallen)
}

/// Every broken copy must be found within the planned calls.
fn breaks(plan: &Plan) -> bool {
    std::panic::set_hook(Box::new(|_| {}));
    let plan = Plan { progress: 0, ..*plan };
    let lists = BROKEN.iter().map(|&broken| {
        let found = run(&mut { REFERENCE }, &mut Guarded(broken), None, &plan);
        told(broken.name, found.err().map(|difference| format!("after {} calls", difference.calls)))
    });
    let leaks = secrecy::leaks().map(|broken| {
        let found = secrecy::run(&mut Guarded(broken), &mut secrecy::classes(), &plan);
        let how = found.err().map(|leak| format!("by secrecy after {} pairs of calls", leak.calls));
        told(broken.name, how)
    });
    let screens = BROKEN_SCREENS.iter().map(|&broken| {
        let mut classes = screens::classes();
        let call = || screens::run(&mut { screens::REFERENCE }, &mut { broken }, &mut classes, &plan);
        told(broken.name, tool_break(call))
    });
    let traces = BROKEN_TRACES.iter().map(|&broken| {
        let mut classes = traces::classes();
        let call = || traces::run(&mut { traces::REFERENCE }, &mut { broken }, &mut classes, &plan);
        told(broken.name, tool_break(call))
    });
    let writes = BROKEN_WRITES.iter().map(|&broken| {
        let mut classes = writes::classes();
        let (left, reader) = (&mut { writes::REFERENCE }, &mut { REFERENCE });
        let call = || writes::run(left, &mut { broken }, reader, &mut classes, &plan);
        told(broken.name, tool_break(call))
    });
    let found: Vec<bool> = lists.chain(leaks).chain(screens).chain(traces).chain(writes).collect();
    let good = found.iter().filter(|&&found| found).count();
    println!("breaks: {good} of {} found", found.len());
    good == found.len()
}

/// Where a broken copy of a tool was found; to fall is to be found too.
fn tool_break(call: impl FnOnce() -> Result<u64, String>) -> Option<String> {
    match catch_unwind(AssertUnwindSafe(call)) {
        Ok(Ok(_)) => None,
        Ok(Err(what)) => Some(format!("by {}", what.replace('\n', ", "))),
        Err(_) => Some("by its fall".to_string()),
    }
}

fn told(name: &str, found: Option<String>) -> bool {
    match &found {
        Some(how) => println!("break {name} found {how}"),
        None => println!("break {name} NOT found"),
    }
    found.is_some()
}
