//! The sequences written: both versions write the same, what is written is read back,
//! every broken copy is found, every class is reached.

use compare::play::Plan;
use compare::writes::{classes, examples, run, Functions, REFERENCE, TUNED};
use compare::BROKEN_WRITES;
use std::panic::{catch_unwind, AssertUnwindSafe};

const PLAN: Plan = Plan { seed: 5, calls: 6_000, list: 0, progress: 0 };

#[test]
fn tuned_equals_the_reference() {
    let mut classes = classes();
    let reader = &mut { compare::TUNED };
    assert_eq!(examples(&mut { REFERENCE }, &mut { TUNED }, reader, &mut classes), Ok(21));
    assert_eq!(run(&mut { REFERENCE }, &mut { TUNED }, reader, &mut classes, &PLAN), Ok(PLAN.calls));
    for (name, count) in classes.lines() {
        assert!(count > 0, "{name} never reached");
    }
}

/// A copy that falls is found too.
fn found(broken: &Functions) -> bool {
    let reader = &mut { compare::REFERENCE };
    let call = || run(&mut { REFERENCE }, &mut { *broken }, reader, &mut classes(), &PLAN).is_err();
    catch_unwind(AssertUnwindSafe(call)).unwrap_or(true)
}

#[test]
fn broken_copies_are_found() {
    assert!(BROKEN_WRITES.len() >= 40);
    for broken in BROKEN_WRITES {
        assert!(found(broken), "{} not found", broken.name);
    }
}

fn named(name: &str) -> Functions {
    *BROKEN_WRITES.iter().find(|broken| broken.name == name).unwrap()
}

/// The named mistakes are seen in the request's own examples already.
#[test]
fn examples_find_the_named_mistakes() {
    let mistakes = [
        "209-short",
        "byte-behind-touched",
        "22-before-11",
        "place-moves-when-refused",
        "3-after-11",
        "parameter-not-passed-on",
        "read-behind-what-waits",
        "16-while-bytes-wait",
        "13-given",
    ];
    for name in mistakes {
        let reader = &mut { compare::REFERENCE };
        let found = examples(&mut { REFERENCE }, &mut { named(name) }, reader, &mut classes());
        assert!(found.is_err(), "{name}");
    }
}

/// Reading back sees by itself what is not that sequence's bytes: both sides are broken
/// alike.
#[test]
fn reading_back_finds_wrong_bytes() {
    let names = [
        "209-short",
        "61-as-line-and-column",
        "parameters-turned-round",
        "parameter-27-written-twice",
        "last-row-of-a-pattern-lost",
        "3-after-10",
    ];
    let found = names.map(|name| {
        let reader = &mut { compare::REFERENCE };
        run(&mut { named(name) }, &mut { named(name) }, reader, &mut classes(), &PLAN).is_err()
    });
    assert_eq!(found, [true, true, true, true, true, false]);
}
