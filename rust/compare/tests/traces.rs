//! Key repeats: the version by arithmetic equals the reference's clock, every
//! broken copy is found, every class is reached.

use compare::play::Plan;
use compare::traces::{classes, examples, run, Functions, REFERENCE, TUNED};
use compare::BROKEN_TRACES;
use std::panic::{catch_unwind, AssertUnwindSafe};

const PLAN: Plan = Plan { seed: 5, calls: 8_000, list: 0, progress: 0 };

#[test]
fn tuned_equals_the_reference() {
    let mut classes = classes();
    assert_eq!(examples(&mut { REFERENCE }, &mut { TUNED }, &mut classes), Ok(19));
    assert_eq!(run(&mut { REFERENCE }, &mut { TUNED }, &mut classes, &PLAN), Ok(PLAN.calls));
    for (name, count) in classes.lines() {
        assert!(count > 0, "{name} never reached");
    }
}

/// A copy that falls is found too.
fn found(broken: &Functions) -> bool {
    let call = || run(&mut { REFERENCE }, &mut { *broken }, &mut classes(), &PLAN).is_err();
    catch_unwind(AssertUnwindSafe(call)).unwrap_or(true)
}

#[test]
fn broken_copies_are_found() {
    assert!(BROKEN_TRACES.len() >= 24);
    for broken in BROKEN_TRACES {
        assert!(found(broken), "{} not found", broken.name);
    }
}

/// The named mistakes are seen in the request's own examples already.
#[test]
fn examples_find_the_named_mistakes() {
    for name in ["repeat-at-the-end-too", "delay-not-times-4", "other-releases-end"] {
        let broken = BROKEN_TRACES.iter().find(|broken| broken.name == name).unwrap();
        let found = examples(&mut { REFERENCE }, &mut { *broken }, &mut classes());
        assert!(found.is_err(), "{name}");
    }
}
