//! Closed streams equal one uncut reading, on both versions; copies that break
//! this are found.

use compare::play::Plan;
use compare::streams::{classes, run};
use compare::{BROKEN, REFERENCE, TUNED};

const PLAN: Plan = Plan { seed: 5, calls: 3_000, list: 0, progress: 0 };

#[test]
fn closed_streams_are_one_reading() {
    for side in [REFERENCE, TUNED] {
        let mut classes = classes();
        assert_eq!(run(&mut { side }, &mut classes, &PLAN), Ok(PLAN.calls));
        for (name, count) in classes.lines() {
            assert!(count > 0, "{}: {name} never reached", side.name);
        }
    }
}

#[test]
fn broken_streams_are_found() {
    let names = [
        "209-at-a-pieces-end-selects-0",
        "only-a-lone-escape-waits",
        "offset-within-the-piece",
        "offset-from-the-count",
        "taken-from-items",
        "closing-takes-what-waits",
        "closing-keeps-the-bytes",
        "closing-keeps-the-count",
        "closing-refuses-209-by-12",
        "closing-forgets-without-12",
        "waiting-bytes-lost-by-an-empty-piece",
    ];
    for name in names {
        let broken = BROKEN.iter().find(|broken| broken.name == name).unwrap();
        assert!(run(&mut { *broken }, &mut classes(), &PLAN).is_err(), "{name} not found");
    }
}
