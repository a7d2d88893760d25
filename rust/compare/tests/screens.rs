//! Two screens: the tuned version equals the reference, every broken copy is
//! found, every class is reached.

use compare::play::Plan;
use compare::screens::{classes, examples, run, Functions, REFERENCE, TUNED};
use compare::BROKEN_SCREENS;

const PLAN: Plan = Plan { seed: 5, calls: 4_000, list: 0, progress: 0 };

#[test]
fn tuned_equals_the_reference() {
    let mut classes = classes();
    assert_eq!(run(&mut { REFERENCE }, &mut { TUNED }, &mut classes, &PLAN), Ok(PLAN.calls));
    for (name, count) in classes.lines() {
        assert!(count > 0, "{name} never reached");
    }
}

#[test]
fn broken_copies_are_found() {
    assert!(BROKEN_SCREENS.len() >= 14);
    for &broken in BROKEN_SCREENS {
        let found = run(&mut { REFERENCE }, &mut { broken }, &mut classes(), &PLAN);
        assert!(found.is_err(), "{} not found", broken.name);
    }
}

#[test]
fn a_difference_is_seen_again() {
    let broken = BROKEN_SCREENS.iter().find(|broken| broken.name == "list-cleared-behind").unwrap();
    let found = |plan: &Plan| run(&mut { REFERENCE }, &mut { *broken }, &mut classes(), plan).unwrap_err();
    let what = found(&PLAN);
    let words: Vec<&str> = what.split_whitespace().collect();
    let at = words.iter().position(|&word| word == "--list").unwrap();
    let list = words[at + 1].parse().unwrap();
    assert_eq!(found(&Plan { list, calls: 1, ..PLAN }), what);
}

#[test]
fn examples_find_broken_copies() {
    assert_eq!(examples(&mut { REFERENCE }, &mut { TUNED }, &mut classes()), Ok(9));
    let found =
        |broken: &&Functions| examples(&mut { REFERENCE }, &mut { **broken }, &mut classes()).is_err();
    assert_eq!(BROKEN_SCREENS.iter().filter(found).count(), BROKEN_SCREENS.len() - 1);
}
