//! Nothing is seen in secret mode of either version; copies that let something be seen are
//! found.

use compare::play::Plan;
use compare::secrecy::{classes, leaks, run, LEAKS};
use compare::{REFERENCE, TUNED};

const PLAN: Plan = Plan { seed: 8, calls: 20_000, list: 0, progress: 0 };

#[test]
fn nothing_is_seen() {
    for side in [REFERENCE, TUNED] {
        let mut classes = classes();
        assert_eq!(run(&mut { side }, &mut classes, &PLAN).map_err(|leak| leak.what), Ok(PLAN.calls));
        for (name, count) in classes.lines() {
            assert!(count > 0, "{}: {name} never reached", side.name);
        }
    }
}

#[test]
fn leaks_are_found() {
    assert_eq!(leaks().count(), LEAKS.len(), "a name is no broken copy's");
    for leak in leaks() {
        assert!(run(&mut { leak }, &mut classes(), &PLAN).is_err(), "{} not found", leak.name);
    }
}

/// What is printed at the end leads to the same list again.
#[test]
fn a_leak_is_seen_again() {
    let leak = leaks().find(|leak| leak.name == "one-place-seen-in-secret").unwrap();
    let first = run(&mut { leak }, &mut classes(), &PLAN).unwrap_err();
    let (_, again) = first.what.rsplit_once("--list ").unwrap();
    let (list, calls) = again.split_once(" --calls ").unwrap();
    let plan = Plan { list: list.parse().unwrap(), calls: calls.parse().unwrap(), ..PLAN };
    let second = run(&mut { leak }, &mut classes(), &plan).unwrap_err();
    assert_eq!((second.calls, second.what), (plan.calls, first.what));
}
