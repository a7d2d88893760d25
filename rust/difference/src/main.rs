//! `difference [--calls N] [--seed S] [--list L]`: the proved library
//! against the reference on random lists of calls, short messages, pieces, closings,
//! packs and key texts among them; with `--streams` its closed streams against the
//! reference's uncut reading, with `--secrecy` pairs of its runs in secret mode against
//! each other, with `--screens` on pairs of screens, with `--traces` on traces of keys, with
//! `--writes` on sequences that it writes, by numbers and by names, and reads back.
//! `difference --vectors`: the same on the named cases.

use compare::report::{command_line, compare, compare_screens, compare_secrecy, compare_streams};
use compare::report::{compare_traces, compare_writes, Subject};
use compare::vectors::cases;
use compare::{screens, traces, writes, REFERENCE};
use difference::{case_difference, Board, NamedBoard};
use std::process::ExitCode;

fn main() -> ExitCode {
    let good = if std::env::args().skip(1).eq(["--vectors"]) {
        named_cases()
    } else {
        let options = command_line().filter(|options| !options.breaks);
        let Some(options) = options else {
            eprintln!(
                "usage: difference [--calls N] [--seed S] [--list L] [--streams | --secrecy | --screens | --traces | --writes] | --vectors"
            );
            return ExitCode::from(2);
        };
        match options.subject {
            Subject::Lists => compare(&mut { REFERENCE }, &mut Board, &options),
            Subject::Streams => compare_streams(&mut Board, &options),
            Subject::Secrecy => compare_secrecy(&mut Board, &options),
            Subject::Screens => compare_screens(&mut { screens::REFERENCE }, &mut Board, &options),
            Subject::Traces => compare_traces(&mut { traces::REFERENCE }, &mut Board, &options),
            Subject::Writes => {
                let mut reference = writes::REFERENCE;
                compare_writes(&mut reference, &mut Board, &mut Board, &options)
                    && compare_writes(&mut reference, &mut NamedBoard, &mut Board, &options)
            }
        }
    };
    if good {
        ExitCode::SUCCESS
    } else {
        ExitCode::FAILURE
    }
}

fn named_cases() -> bool {
    let cases = cases();
    let found: Vec<String> = cases.iter().filter_map(|case| case_difference(&mut Board, case)).collect();
    for difference in &found {
        println!("{difference}");
    }
    println!("vectors: {} cases, {} differ", cases.len(), found.len());
    found.is_empty()
}
