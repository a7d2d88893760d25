//! The proved library equals the reference on short runs; the long run is
//! the program's. Broken copies show that both ways of looking see something.

use compare::play::{run, Plan};
use compare::vectors::cases;
use compare::{secrecy, streams, writes, BROKEN, REFERENCE};
use difference::{case_difference, settings_from_board, settings_to_board, Board, NamedBoard};
use reference::settings::OPENING;

#[test]
fn random_lists() {
    for seed in 200..204 {
        let plan = Plan { seed, calls: 5_000, list: 0, progress: 0 };
        if let Err(difference) = run(&mut { REFERENCE }, &mut Board, None, &plan) {
            panic!("{difference}");
        }
    }
}

#[test]
fn closed_streams() {
    let plan = Plan { seed: 205, calls: 2_000, list: 0, progress: 0 };
    assert_eq!(streams::run(&mut Board, &mut streams::classes(), &plan), Ok(plan.calls));
}

#[test]
fn nothing_seen_in_secret_mode() {
    let plan = Plan { seed: 207, calls: 10_000, list: 0, progress: 0 };
    let found = secrecy::run(&mut Board, &mut secrecy::classes(), &plan);
    assert_eq!(found.map_err(|leak| leak.what), Ok(plan.calls));
}

/// By numbers and by names; what the archive writes it also reads back.
#[test]
fn written_sequences() {
    let plan = Plan { seed: 206, calls: 3_000, list: 0, progress: 0 };
    let sides: [&mut dyn writes::Writes; 2] = [&mut Board, &mut NamedBoard];
    for side in sides {
        let (mut reference, mut classes) = (writes::REFERENCE, writes::classes());
        assert_eq!(writes::examples(&mut reference, side, &mut Board, &mut classes), Ok(21));
        assert_eq!(writes::run(&mut reference, side, &mut Board, &mut classes, &plan), Ok(plan.calls));
    }
}

#[test]
fn named_cases() {
    for case in cases() {
        if let Some(difference) = case_difference(&mut Board, &case) {
            panic!("{difference}");
        }
    }
}

#[test]
fn named_cases_find_a_broken_copy() {
    let broken = BROKEN.iter().find(|broken| broken.name == "209-at-the-end-refused-by-12").unwrap();
    let found = cases().iter().filter_map(|case| case_difference(&mut { *broken }, case)).count();
    assert!(found > 0);
}

/// Carrying the settings over and back loses nothing, in either direction.
#[test]
fn settings_are_carried_over_whole() {
    let mut settings = OPENING;
    for (at, byte) in settings.patterns.iter_mut().enumerate() {
        *byte = at as u8;
    }
    (settings.places[1].column, settings.places[1].waiting, settings.rule) = (77, 5, 6);
    settings.keys.arrows = [1, 2, 3, 4, 5, 6, 7, 8, 9, 10, 11, 12];
    settings.waiting = [21, 22, 23, 24, 25, 26, 27, 28, 29, 30, 31, 32];
    (settings.held, settings.count) = (33, 0x0102_0304);
    for (at, byte) in settings.texts.iter_mut().enumerate() {
        *byte = 100 + at as u8;
    }
    for (at, byte) in settings.marks.iter_mut().enumerate() {
        *byte = u8::from(at % 3 == 0);
    }
    (settings.marks[47], settings.marks[50]) = (2, 255);
    let board = settings_to_board(&settings);
    assert_eq!(settings_from_board(&board), settings);
}
