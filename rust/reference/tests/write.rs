//! Document 02, P7: the sequences written, by example and one by one.

use reference::read::{length, read, Item};
use reference::settings::{Settings, OPENING};
use reference::write::write;

/// Settings of each mode, and what waits in a stream.
fn modes() -> [Settings; 4] {
    let mode_1 = Settings { mode: 1, columns1: 39, columns2: 39, ..OPENING };
    let mode_2 = Settings { mode: 2, columns1: 20, columns2: 59, ..OPENING };
    let mode_3 = Settings { mode: 3, lines1: 8, lines2: 0, columns2: 0, kind: 3, ..OPENING };
    let settings = [OPENING, mode_1, mode_2, mode_3];
    assert!(settings.iter().all(reference::sound));
    settings
}

fn with_waiting(settings: Settings) -> Settings {
    let mut waiting = [0; 12];
    waiting[..2].copy_from_slice(&[27, 61]);
    Settings { held: 2, waiting, count: 2, ..settings }
}

/// A refused write: number and parameter, and nothing moves.
fn refused(settings: Settings, second: u8, parameters: &[u8], length: usize, place: usize) -> (u8, u8) {
    let mut buffer: Vec<u8> = (0..length).map(|at| at as u8).collect();
    let before = buffer.clone();
    let (after, number, parameter) = write(settings, second, parameters, &mut buffer, place);
    assert_eq!((after, buffer), (place, before));
    (number, parameter)
}

/// The bytes written, with the buffer before and behind them as it was.
fn written(settings: Settings, second: u8, parameters: &[u8]) -> Vec<u8> {
    let mut buffer = [7; 20];
    let (place, number, parameter) = write(settings, second, parameters, &mut buffer, 3);
    assert_eq!((number, parameter), (0, 0), "{second} {parameters:?}");
    assert!(buffer[..3].iter().chain(&buffer[place..]).all(|&byte| byte == 7));
    buffer[3..place].to_vec()
}

#[test]
fn select_has_its_byte() {
    assert_eq!(written(OPENING, 209, &[0]), [27, 209, 0]);
    assert_eq!(written(OPENING, 209, &[1]), [27, 209, 1]);
    assert_eq!(written(OPENING, 209, &[]), [27, 209, 0]);
}

#[test]
fn cursor_placings() {
    assert_eq!(written(OPENING, 61, &[43, 32]), [27, 61, 43, 32]);
    assert_eq!(refused(OPENING, 61, &[56, 32], 20, 0), (11, 1));
    assert_eq!(refused(OPENING, 61, &[55, 112], 20, 0), (11, 2));
}

#[test]
fn space() {
    let mut buffer = [9; 4];
    assert_eq!(write(OPENING, 42, &[], &mut buffer, 2), (4, 0, 0));
    assert_eq!(buffer, [9, 9, 27, 42]);
    assert_eq!(refused(OPENING, 148, &[1], 4, 2), (22, 0));
    for place in [3, 4, 5, usize::MAX - 1, usize::MAX] {
        assert_eq!(refused(OPENING, 42, &[], 4, place), (22, 0), "{place}");
    }
    assert_eq!(refused(OPENING, 42, &[], 0, 0), (22, 0));
}

#[test]
fn order() {
    let unsound = Settings { step: 0, ..OPENING };
    assert_eq!(refused(unsound, 61, &[56, 32], 0, 9), (3, 0));
    assert_eq!(refused(unsound, 1, &[], 0, 9), (3, 0));
    assert_eq!(refused(OPENING, 61, &[56, 32], 0, 9), (11, 1));
    assert_eq!(refused(OPENING, 61, &[56], 0, 9), (12, 0));
    assert_eq!(refused(OPENING, 1, &[], 0, 9), (10, 0));
    // all settings are judged, those of the stream too
    let waits_wrong = Settings { held: 1, ..OPENING };
    assert_eq!(refused(waits_wrong, 42, &[], 9, 0), (3, 0));
}

/// What is no sequence of the list, whatever the settings.
#[test]
fn no_sequences() {
    for settings in modes() {
        let number = |second: u8, parameters: &[u8]| refused(settings, second, parameters, 20, 0);
        assert_eq!([number(27, &[]), number(0, &[1, 2]), number(255, &[0; 11])], [(10, 0); 3]);
        assert_eq!([number(61, &[32]), number(208, &[]), number(208, &[0, 8])], [(12, 0); 3]);
        assert_eq!([number(208, &[4]), number(208, &[255])], [(11, 1); 2]);
        assert_eq!([number(42, &[0]), number(61, &[0, 0, 0]), number(198, &[0; 12])], [(10, 0); 3]);
        assert_eq!([number(208, &[3, 0]), number(208, &[9, 9]), number(224, &[224; 90])], [(10, 0); 3]);
    }
}

#[test]
fn copies_have_room() {
    for settings in modes() {
        assert_eq!(written(settings, 80, &[]), [27, 80]);
    }
}

#[test]
fn what_the_mode_does_not_judge() {
    let [mode_0, mode_1, mode_2, mode_3] = modes();
    for settings in [mode_0, mode_1, mode_2] {
        assert_eq!(written(settings, 198, &[255; 11])[2..], [255; 11]);
        assert_eq!(written(settings, 199, &[255; 4])[2..], [255; 4]);
        assert_eq!(refused(settings, 148, &[17], 20, 0), (11, 1));
    }
    assert_eq!(written(mode_3, 148, &[17]), [27, 148, 17]);
    assert_eq!(refused(mode_3, 199, &[2, 255, 255, 255], 20, 0), (11, 1));
    assert_eq!(refused(mode_3, 198, &[1, 224, 0, 0, 0, 0, 0, 0, 0, 0, 9], 20, 0), (11, 2));
}

#[test]
fn several_and_a_pattern() {
    let mut buffer = [0; 20];
    let (place, ..) = write(OPENING, 37, &[27], &mut buffer, 0);
    let (place, ..) = write(OPENING, 42, &[], &mut buffer, place);
    assert_eq!(buffer[..place], [27, 37, 27, 27, 42]);
    let rows = [1, 2, 4, 8, 16, 32, 64, 128];
    let pattern = written(OPENING, 224, &[&[230], &rows[..]].concat());
    assert_eq!((pattern.len(), &pattern[..3], &pattern[3..]), (11, &[27, 224, 230][..], &rows[..]));
}

#[test]
fn waiting_bytes_aside() {
    for settings in modes() {
        let waits = with_waiting(settings);
        for (second, parameters) in [(42, &[][..]), (61, &[32, 32]), (61, &[0, 0]), (1, &[]), (208, &[])] {
            let mut buffers = [[7; 9]; 2];
            let [one, other] = &mut buffers;
            assert_eq!(
                write(settings, second, parameters, one, 2),
                write(waits, second, parameters, other, 2)
            );
            assert_eq!(buffers[0], buffers[1]);
        }
    }
}

/// "reading them gives that sequence back": every second byte with every number of
/// parameters in every mode is written whole or refused as the list says.
#[test]
fn every_second_byte() {
    for settings in modes() {
        for second in 0..=255 {
            for (count, first) in
                (0..=12).flat_map(|count| [0, 1, 2, 3, 8, 32, 85, 224].map(|at| (count, at)))
            {
                let parameters = vec![first; count];
                let mut buffer = [7; 16];
                let (place, number, _) = write(settings, second, &parameters, &mut buffer, 0);
                let listed = length(second, parameters.first().copied());
                match number {
                    0 => {
                        let (item, taken) = read(&buffer[..place], &settings, 3840);
                        let sent = if count == 0 && second == 209 { vec![0] } else { parameters };
                        assert_eq!(item, Item::Sequence { second, parameters: &sent });
                        assert_eq!((taken, Some(taken)), (place, listed));
                    }
                    10 => assert!(listed.is_none_or(|listed| count + 2 > listed)),
                    12 => assert!(listed.is_some_and(|listed| count + 2 < listed)),
                    _ => assert_eq!((number, listed), (11, Some(count + 2))),
                }
            }
        }
    }
}
