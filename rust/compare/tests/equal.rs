//! The tuned version equals the reference, broken copies do not, a found
//! difference can be seen again, and the named cases are in order.

use compare::coverage::Coverage;
use compare::generate::{Kind, SIZES};
use compare::play::{run, Plan};
use compare::vectors::{cases, play, recording};
use compare::{Functions, BROKEN, REFERENCE, TUNED};
use reference::stream::waits;
use reference::{Answer, Settings};
use std::collections::BTreeSet;

fn plan(seed: u64, list: u64, calls: u64) -> Plan {
    Plan { seed, calls, list, progress: 0 }
}

#[test]
fn tuned_equals_the_reference() {
    for seed in 100..104 {
        let mut coverage = Coverage::new();
        let found = run(&mut { REFERENCE }, &mut { TUNED }, Some(&mut coverage), &plan(seed, 0, 5_000));
        if let Err(difference) = found {
            panic!("{difference}");
        }
        for class in ["call 0", "short 0"] {
            assert!(coverage.lines().iter().any(|(name, count)| name == class && *count > 500), "{class}");
        }
    }
}

#[test]
fn a_difference_is_seen_again() {
    // a break that needs no guard
    let broken = BROKEN.iter().find(|broken| broken.name == "209-at-the-end-refused-by-12").unwrap();
    let found = run(&mut { REFERENCE }, &mut { *broken }, None, &plan(7, 0, 200_000));
    let Err(first) = found else { panic!("not found") };
    let again = run(&mut { REFERENCE }, &mut { *broken }, None, &plan(7, first.list, first.call as u64));
    let Err(second) = again else { panic!("not seen again") };
    assert_eq!((first.list, first.call, &first.what), (second.list, second.call, &second.what));
    assert_eq!(first.message, second.message);
    // at the very end, or at that of a pack's message
    let read = [waits(&first.settings), &first.message].concat();
    assert!(read.windows(2).any(|two| two == [27, 209]));
}

#[test]
fn named_cases() {
    let cases = cases();
    let names: BTreeSet<&str> = cases.iter().map(|case| case.name.as_str()).collect();
    assert!(cases.len() >= 300);
    assert_eq!(names.len(), cases.len(), "a name stands twice");
    assert!(names.iter().all(|name| name.is_ascii() && !name.contains(' ')));
    let text = play(&recording(&cases)).unwrap();
    assert_eq!(text.lines().filter(|line| line.starts_with("case ")).count(), cases.len());
}

/// The messages that build a scene are accepted whole.
#[test]
fn scenes_are_built_whole() {
    let text = play(&recording(&cases())).unwrap();
    let mut built = 0;
    for case in text.split("case ").skip(1).filter(|case| case.starts_with("range-mode-")) {
        for line in case.lines().skip(1).take(2) {
            assert!(line.contains(" refused 0 "), "{case}");
            built += 1;
        }
    }
    assert!(built > 300);
}

/// The named cases, call by call, on both versions.
#[test]
fn tuned_equals_the_reference_on_the_named_cases() {
    for case in cases() {
        let mut sides = [REFERENCE, TUNED].map(|side| {
            let mut stores = SIZES.map(|size| vec![1; size]);
            let [cells, layer, shown, dots] = &mut stores;
            let settings = (side.opening)(1, cells, layer, shown, dots).0;
            (settings, stores)
        });
        for call in &case.calls {
            let left = play_one(&REFERENCE, &mut sides[0], call);
            let right = play_one(&TUNED, &mut sides[1], call);
            assert_eq!(left, right, "{}", case.name);
            assert!(sides[0] == sides[1], "{}", case.name);
        }
    }
}

type Side = (Settings, [Vec<u8>; 4]);

fn play_one(terminal: &Functions, side: &mut Side, call: &(Kind, usize, Vec<u8>)) -> (Answer, u32, Vec<u8>) {
    let (kind, room, bytes) = call;
    let (settings, [cells, layer, shown, dots]) = side;
    let mut printer = vec![7; *room];
    let mut record = 0;
    let (after, answer) = match kind {
        Kind::Message => (terminal.message)(*settings, bytes, cells, layer, shown, dots, &mut printer),
        Kind::Short => (terminal.message_short)(*settings, bytes, cells, layer, shown, dots, &mut printer),
        Kind::Piece => (terminal.piece)(*settings, bytes, cells, layer, shown, dots, &mut printer),
        Kind::Closing => (terminal.closing)(*settings, cells, layer, shown, dots),
        Kind::Pack => {
            let served = (terminal.pack)(*settings, bytes, cells, layer, shown, dots, &mut printer);
            record = served.2;
            (served.0, served.1)
        }
        Kind::KeyText(number) => (terminal.key_text)(*settings, *number, bytes),
        Kind::Opening(rule) => {
            let (settings, number) = (terminal.opening)(*rule, cells, layer, shown, dots);
            (settings, Answer { number, ..Answer::default() })
        }
    };
    *settings = after;
    (answer, record, printer)
}
