//! The request's own examples.

use super::{List, Sequence};
use reference::settings::OPENING;
use reference::Settings;

fn list(settings: Settings, sequences: &[(u8, &[u8])], length: usize, place: usize) -> List {
    let sequences: Vec<Sequence> =
        sequences.iter().map(|&(second, parameters)| (second, parameters.to_vec())).collect();
    List { settings, sequences, buffer: vec![7; length], place }
}

#[rustfmt::skip]
pub fn named() -> Vec<List> {
    let good = |sequences: &[(u8, &[u8])]| list(OPENING, sequences, 40, 0);
    let mode_3 = Settings { mode: 3, lines1: 8, lines2: 0, columns2: 0, kind: 3, ..OPENING };
    let unsound = Settings { step: 0, ..OPENING };
    let mut waits = Settings { held: 2, count: 9, ..OPENING };
    waits.waiting[..2].copy_from_slice(&[27, 61]);
    let rows = |last: u8| [230, 1, 2, 4, 8, 16, 32, 64, last];
    vec![
        good(&[(209, &[0]), (209, &[1]), (209, &[])]), good(&[(209, &[]), (42, &[])]),
        good(&[(61, &[43, 32]), (61, &[56, 32]), (61, &[55, 112])]),
        list(OPENING, &[(42, &[])], 4, 2), list(OPENING, &[(148, &[1])], 4, 2), list(OPENING, &[(42, &[])], 4, 5),
        list(OPENING, &[(42, &[])], 4, usize::MAX), list(OPENING, &[(42, &[])], 0, 0),
        list(unsound, &[(61, &[56, 32])], 0, 9), list(OPENING, &[(61, &[56, 32])], 0, 9),
        list(unsound, &[(61, &[56, 32])], 40, 0), list(unsound, &[(42, &[])], 40, 0),
        good(&[(37, &[27]), (42, &[])]), good(&[(224, &rows(128)), (224, &rows(129))]),
        list(waits, &[(61, &[43, 32]), (61, &[56, 32]), (80, &[])], 40, 0),
        good(&[(80, &[]), (80, &[])]), list(mode_3, &[(80, &[]), (148, &[99]), (209, &[27])], 40, 0),
        good(&[(198, &[255; 11]), (199, &[255; 4])]), list(mode_3, &[(199, &[1, 63, 1, 224]), (198, &[255; 11])], 40, 0),
        good(&[(1, &[]), (61, &[32]), (42, &[0]), (208, &[]), (208, &[9]), (208, &[9, 9]), (198, &[0; 12])]),
        good(&[(208, &[0, 24, 24]), (208, &[1, 24]), (208, &[2, 10, 20, 35]), (208, &[3])]),
    ]
}
