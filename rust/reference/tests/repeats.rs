//! Document 02, P13: its examples and its refusals, with a delay of 32 and an
//! interval of 16.

use reference::repeats::{key_repeats, text};
use reference::settings::OPENING;
use reference::Settings;

const PRESS: u16 = 1;
const RELEASE: u16 = 2;

fn record(kind: u16, tick: u32, key: u8) -> Vec<u8> {
    let mut bytes = vec![5, 0];
    bytes.extend(kind.to_le_bytes());
    bytes.extend(tick.to_le_bytes());
    bytes.push(key);
    bytes
}

fn trace(records: &[(u16, u32, u8)]) -> Vec<u8> {
    records.iter().flat_map(|&(kind, tick, key)| record(kind, tick, key)).collect()
}

fn sent_with(settings: Settings, records: &[(u16, u32, u8)]) -> Vec<(u32, u8)> {
    let mut output = [0; 5_000];
    let (number, count) = key_repeats(settings, &trace(records), &mut output);
    assert_eq!(number, 0);
    let codes = output.chunks(5).take(count);
    codes.map(|code| (u32::from_le_bytes(code[..4].try_into().unwrap()), code[4])).collect()
}

/// The ticks at which key 65 is sent.
fn ticks(records: &[(u16, u32, u8)]) -> Vec<u32> {
    sent_with(OPENING, records).into_iter().filter(|&(_, key)| key == 65).map(|(tick, _)| tick).collect()
}

fn refused(settings: Settings, trace: &[u8], room: usize) -> u8 {
    let mut output = vec![7; room];
    let (number, count) = key_repeats(settings, trace, &mut output);
    if number != 0 {
        assert_eq!((count, output), (0, vec![7; room]));
    }
    number
}

#[test]
fn a_held_key_until_its_release() {
    let bytes = [5, 0, 1, 0, 0, 0, 0, 0, 65, 5, 0, 2, 0, 160, 0, 0, 0, 65];
    assert_eq!(bytes[..], trace(&[(PRESS, 0, 65), (RELEASE, 160, 65)]));
    assert_eq!(ticks(&[(PRESS, 0, 65), (RELEASE, 160, 65)]), [0, 128, 144]);
    assert_eq!(ticks(&[(PRESS, 0, 65), (RELEASE, 161, 65)]), [0, 128, 144, 160]);
    assert_eq!(ticks(&[(PRESS, 0, 65), (RELEASE, 128, 65)]), [0]);
    assert_eq!(ticks(&[(PRESS, 0, 65), (RELEASE, 129, 65)]), [0, 128]);
}

#[test]
fn the_last_record_ends() {
    assert_eq!(ticks(&[(PRESS, 0, 65), (RELEASE, 1000, 66)]).len(), 56);
    assert_eq!(ticks(&[(PRESS, 0, 65), (RELEASE, 500, 66), (RELEASE, 1000, 66)]).len(), 56);
    assert_eq!(ticks(&[(PRESS, 9, 65)]), [9]);
    assert_eq!(ticks(&[(PRESS, 0, 65), (RELEASE, 128, 66)]), [0]);
}

#[test]
fn any_next_press_ends() {
    assert_eq!(ticks(&[(PRESS, 0, 65), (PRESS, 128, 65)]), [0, 128]);
    assert_eq!(ticks(&[(PRESS, 0, 65), (PRESS, 129, 66), (RELEASE, 400, 66)]), [0, 128]);
    // the release of a key that a press has ended does nothing
    let records = [(PRESS, 0, 65), (PRESS, 10, 66), (RELEASE, 20, 65), (RELEASE, 139, 66)];
    assert_eq!(sent_with(OPENING, &records), [(0, 65), (10, 66), (138, 66)]);
}

#[test]
fn ticks_near_the_greatest() {
    assert_eq!(ticks(&[(PRESS, 4_294_967_290, 65), (RELEASE, 4_294_967_295, 65)]), [4_294_967_290]);
    let last = [(PRESS, 4_294_967_000, 65), (RELEASE, 4_294_967_295, 66)];
    assert_eq!(ticks(&last).len(), 12);
}

#[test]
fn repeat_off_sends_presses_alone() {
    let mut settings = OPENING;
    settings.keys.repeat = 0;
    let records = [(PRESS, 0, 65), (RELEASE, 900, 65), (PRESS, 950, 66), (RELEASE, 2000, 1)];
    assert_eq!(sent_with(settings, &records), [(0, 65), (950, 66)]);
}

#[test]
fn delay_and_interval_are_the_settings() {
    let mut settings = OPENING;
    (settings.keys.delay, settings.keys.interval) = (1, 127);
    let records = [(PRESS, 3, 65), (RELEASE, 262, 65)];
    assert_eq!(sent_with(settings, &records), [(3, 65), (7, 65), (134, 65), (261, 65)]);
}

#[test]
fn refusals_in_their_order() {
    let unsound = Settings { step: 0, ..OPENING };
    let long = vec![5; 60_001];
    assert_eq!(refused(unsound, &long, 0), 3);
    assert_eq!(refused(OPENING, &long, 0), 19);
    // a bad kind first and a cut record last: 20
    let mut cut = [record(3, 0, 65), record(PRESS, 0, 65)].concat();
    assert_eq!(refused(OPENING, &cut, 0), 21);
    cut.pop();
    assert_eq!(refused(OPENING, &cut, 0), 20);
    assert_eq!(refused(OPENING, &[5, 0, 1], 0), 20);
    // a falling tick first and a bad kind later: 21
    let falling = [(PRESS, 5, 65), (RELEASE, 4, 66)];
    assert_eq!(refused(OPENING, &[trace(&falling), record(3, 9, 65)].concat(), 0), 21);
    assert_eq!(refused(OPENING, &trace(&falling), 0), 24);
    assert_eq!(refused(OPENING, &[4, 0, 1, 0, 1, 2, 3, 4], 99), 21);
    assert_eq!(refused(OPENING, &[6, 0, 1, 0, 1, 2, 3, 4, 5, 6], 99), 21);
    assert_eq!(refused(OPENING, &record(257, 0, 65), 99), 21);
    assert_eq!(refused(OPENING, &trace(&[(PRESS, 5, 65), (RELEASE, 5, 65)]), 5), 0);
    assert_eq!(refused(OPENING, &[], 0), 0);
}

#[test]
fn output_and_what_lies_beyond() {
    let bytes = trace(&[(PRESS, 0, 65), (RELEASE, 160, 65)]);
    assert_eq!(refused(OPENING, &bytes, 14), 25);
    let mut output = [7; 16];
    assert_eq!(key_repeats(OPENING, &bytes, &mut output[..15]), (0, 3));
    assert_eq!(key_repeats(OPENING, &bytes, &mut output), (0, 3));
    assert_eq!(output, [0, 0, 0, 0, 65, 128, 0, 0, 0, 65, 144, 0, 0, 0, 65, 7]);
}

#[test]
fn words_of_the_program() {
    let bytes = trace(&[(PRESS, 0, 65), (RELEASE, 160, 65)]);
    assert_eq!(text(OPENING, &bytes), "answer 0 codes 3\n0 65\n128 65\n144 65\n");
    assert_eq!(text(OPENING, &bytes[1..]), "answer 20 codes 0\n");
    assert_eq!(text(OPENING, &[]), "answer 0 codes 0\n");
    // 13,107 codes fit, one more does not
    let end = 128 + 16 * 13_106;
    let most = trace(&[(PRESS, 0, 65), (RELEASE, end, 65)]);
    assert!(text(OPENING, &most).starts_with("answer 0 codes 13107\n"));
    let more = trace(&[(PRESS, 0, 65), (RELEASE, end + 1, 65)]);
    assert_eq!(text(OPENING, &more), "answer 25 codes 0\n");
}
