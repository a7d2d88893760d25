//! `PX8_MACHINE=PROGRAM machine OPTIONS..`: what `difference` does, with the calls on another machine: the words of
//! PROGRAM start c/machine.c there, as in
//! `PX8_MACHINE='qemu-aarch64 target/targets/aarch64/machine' machine --calls 200000`.

use compare::report::{command_line, compare, compare_screens, compare_secrecy, compare_streams};
use compare::report::{compare_traces, compare_writes, Options, Subject};
use compare::vectors::cases;
use compare::{screens, traces, writes, REFERENCE};
use difference::case_difference;
use difference::machine::Machine;
use std::process::ExitCode;

fn main() -> ExitCode {
    let Ok(program) = std::env::var("PX8_MACHINE") else {
        eprintln!("usage: PX8_MACHINE=PROGRAM machine OPTIONS..");
        return ExitCode::from(2);
    };
    let start = || Machine::start(&program).expect("the machine starts");
    let good = if std::env::args().skip(1).eq(["--vectors"]) {
        named_cases(start())
    } else {
        match command_line().filter(|options| !options.breaks) {
            Some(options) => compared(start(), start(), &options),
            None => return ExitCode::from(2),
        }
    };
    if good {
        ExitCode::SUCCESS
    } else {
        ExitCode::FAILURE
    }
}

/// What was written is read back by the second one, of the same program.
fn compared(mut machine: Machine, mut second: Machine, options: &Options) -> bool {
    match options.subject {
        Subject::Lists => compare(&mut { REFERENCE }, &mut machine, options),
        Subject::Streams => compare_streams(&mut machine, options),
        Subject::Secrecy => compare_secrecy(&mut machine, options),
        Subject::Screens => compare_screens(&mut { screens::REFERENCE }, &mut machine, options),
        Subject::Traces => compare_traces(&mut { traces::REFERENCE }, &mut machine, options),
        Subject::Writes => compare_writes(&mut { writes::REFERENCE }, &mut machine, &mut second, options),
    }
}

fn named_cases(mut machine: Machine) -> bool {
    let cases = cases();
    let found: Vec<String> = cases.iter().filter_map(|case| case_difference(&mut machine, case)).collect();
    for difference in found.iter().take(5) {
        println!("{difference}");
    }
    println!("vectors: {} cases, {} differ", cases.len(), found.len());
    found.is_empty()
}
