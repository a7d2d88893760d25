//! A whole comparison with its words: the command line, the lines of
//! progress, the counts, and the verdict. Another implementation is compared
//! by a program of its own that calls `command_line` and `compare`.

use crate::coverage::Coverage;
use crate::play::{run, Plan};
use crate::screens::{self, Screens};
use crate::secrecy;
use crate::streams;
use crate::traces::{self, Repeats};
use crate::writes::{self, Writes};
use crate::Terminal;

/// What is compared.
#[derive(Clone, Copy, PartialEq, Eq)]
pub enum Subject {
    /// lists of calls of a terminal
    Lists,
    /// closed streams against one uncut reading
    Streams,
    /// pairs of runs in secret mode
    Secrecy,
    /// pairs of screens
    Screens,
    /// traces of keys
    Traces,
    /// sequences written
    Writes,
}

pub struct Options {
    pub plan: Plan,
    pub subject: Subject,
    pub breaks: bool,
    /// a list was asked for by number: classes are then not judged
    pub one_list: bool,
}

/// The options given to the program; none if they are not understood.
pub fn command_line() -> Option<Options> {
    let plan = Plan { seed: 1, calls: 200_000, list: 0, progress: 25_000 };
    let mut options = Options { plan, subject: Subject::Lists, breaks: false, one_list: false };
    let mut words = std::env::args().skip(1);
    while let Some(word) = words.next() {
        match word.as_str() {
            "--calls" => options.plan.calls = words.next()?.parse().ok()?,
            "--seed" => options.plan.seed = words.next()?.parse().ok()?,
            "--list" => {
                options.plan.list = words.next()?.parse().ok()?;
                options.one_list = true;
            }
            "--streams" => options.subject = Subject::Streams,
            "--secrecy" => options.subject = Subject::Secrecy,
            "--screens" => options.subject = Subject::Screens,
            "--traces" => options.subject = Subject::Traces,
            "--writes" => options.subject = Subject::Writes,
            "--breaks" => options.breaks = true,
            _ => return None,
        }
    }
    Some(options)
}

/// Compares two terminals; good if no difference is found and every class is
/// reached.
pub fn compare(left: &mut dyn Terminal, right: &mut dyn Terminal, options: &Options) -> bool {
    println!("compare: {} and {}, seed {}", left.name(), right.name(), options.plan.seed);
    let mut coverage = Coverage::new();
    let outcome = run(left, right, Some(&mut coverage), &options.plan);
    verdict("calls", outcome.map_err(|difference| difference.to_string()), &coverage.lines(), options)
}

/// Closed streams of one terminal against the reference's uncut reading.
pub fn compare_streams(terminal: &mut dyn Terminal, options: &Options) -> bool {
    println!("compare: closed streams, {}, seed {}", terminal.name(), options.plan.seed);
    let mut classes = streams::classes();
    let outcome = streams::run(terminal, &mut classes, &options.plan);
    verdict("closed streams", outcome, &classes.lines(), options)
}

/// Pairs of runs of one terminal in secret mode, of which the same must be seen.
pub fn compare_secrecy(terminal: &mut dyn Terminal, options: &Options) -> bool {
    println!("compare: runs in secret mode, {}, seed {}", terminal.name(), options.plan.seed);
    let mut classes = secrecy::classes();
    let outcome = secrecy::run(terminal, &mut classes, &options.plan);
    verdict("pairs of calls in secret mode", outcome.map_err(|leak| leak.what), &classes.lines(), options)
}

/// The same of the comparison of two screens.
pub fn compare_screens(left: &mut dyn Screens, right: &mut dyn Screens, options: &Options) -> bool {
    println!("compare: screens, {} and {}, seed {}", left.name(), right.name(), options.plan.seed);
    let mut classes = screens::classes();
    let outcome = screens::examples(left, right, &mut classes)
        .and_then(|_| screens::run(left, right, &mut classes, &options.plan));
    verdict("pairs of screens", outcome, &classes.lines(), options)
}

/// The same of key repeats.
pub fn compare_traces(left: &mut dyn Repeats, right: &mut dyn Repeats, options: &Options) -> bool {
    println!("compare: traces, {} and {}, seed {}", left.name(), right.name(), options.plan.seed);
    let mut classes = traces::classes();
    let outcome = traces::examples(left, right, &mut classes)
        .and_then(|_| traces::run(left, right, &mut classes, &options.plan));
    verdict("traces", outcome, &classes.lines(), options)
}

/// The same of the sequences written, read back by a terminal.
pub fn compare_writes(
    left: &mut dyn Writes,
    right: &mut dyn Writes,
    reader: &mut dyn Terminal,
    options: &Options,
) -> bool {
    println!("compare: sequences written, {} and {}, seed {}", left.name(), right.name(), options.plan.seed);
    println!("compare: read back by {}", reader.name());
    let mut classes = writes::classes();
    let outcome = writes::examples(left, right, reader, &mut classes)
        .and_then(|_| writes::run(left, right, reader, &mut classes, &options.plan));
    verdict("lists of sequences", outcome, &classes.lines(), options)
}

/// Prints what a comparison found and what it reached.
fn verdict(what: &str, outcome: Result<u64, String>, lines: &[(String, u64)], options: &Options) -> bool {
    let count = match outcome {
        Ok(count) => count,
        Err(difference) => {
            println!("{difference}");
            return false;
        }
    };
    let missed = if options.one_list { 0 } else { print_coverage(lines) };
    if missed > 0 {
        println!("compare: {count} {what}, no difference, but {missed} classes never reached");
        return false;
    }
    println!("compare: {count} {what}, no difference");
    true
}

/// Prints the counts, and returns how many classes were never reached.
fn print_coverage(lines: &[(String, u64)]) -> usize {
    for (name, count) in lines {
        println!("{count:>9} {name}");
    }
    let missed = lines.iter().filter(|(_, count)| *count == 0);
    for (name, _) in missed.clone() {
        println!("never reached: {name}");
    }
    let missed = missed.count();
    println!("coverage: {} classes, {missed} never reached", lines.len());
    missed
}
