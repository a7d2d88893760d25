//! Document 02, P6: packs. The request's examples, the order of the numbers, and
//! that a pack is its messages one by one.

use reference::settings::{CELLS, COPY, DOTS, LAYER, OPENING, SHOWN};
use reference::text::{replay, Session};
use reference::{key_text, pack, Answer, Settings};

fn record(kind: u16, body: &[u8]) -> Vec<u8> {
    let mut bytes = (body.len() as u16).to_le_bytes().to_vec();
    bytes.extend(kind.to_le_bytes());
    bytes.extend(body);
    bytes
}

fn packed(bodies: &[&[u8]]) -> Vec<u8> {
    bodies.iter().flat_map(|body| record(1, body)).collect()
}

/// The number by which a pack is refused on these settings; nothing may change.
fn refused_on(settings: Settings, bytes: &[u8], sizes: [usize; 4]) -> u8 {
    let mut stores = sizes.map(|size| vec![9; size]);
    let [cells, layer, shown, dots] = &mut stores;
    let mut printer = [7; COPY];
    let (after, answer, record) = pack(settings, bytes, cells, layer, shown, dots, &mut printer);
    if answer.number != 0 {
        assert_eq!((after, record), (settings, 0));
        assert_eq!(answer, Answer { number: answer.number, ..Answer::default() });
        assert!(stores.iter().flatten().all(|&byte| byte == 9) && printer == [7; COPY]);
    }
    answer.number
}

const SIZES: [usize; 4] = [CELLS, LAYER, SHOWN, DOTS];

fn refused(settings: Settings, bytes: &[u8]) -> u8 {
    refused_on(settings, bytes, SIZES)
}

/// Settings in which 27 waits.
fn waiting() -> Settings {
    let mut settings = Settings { held: 1, count: 1, ..OPENING };
    settings.waiting[0] = 27;
    settings
}

// ---- the request's examples ----

#[test]
fn a_sequence_does_not_run_on() {
    let mut session = Session::open();
    let (answer, record) = session.pack(&[1, 0, 1, 0, 27, 1, 0, 1, 0, 80], COPY);
    assert_eq!((answer.first, record, answer.offset, answer.taken), (12, 1, 0, 2));
    assert_eq!(session.cells[0], 80);
}

#[test]
fn the_room_left_over() {
    let mut session = Session::open();
    let (answer, record) = session.pack(&packed(&[&[27, 80], &[], &[27, 80]]), 1311);
    assert_eq!((answer.accepted, answer.first, record, answer.printed), (1, 13, 3, 656));
    let mut session = Session::open();
    let (answer, record) = session.pack(&packed(&[b"A\x1bP", b"B\x1bP"]), 1312);
    assert_eq!((answer.accepted, answer.first, record, answer.printed), (2, 0, 0, 1312));
    assert_eq!(
        (session.printed[0], session.printed[1], session.printed[656], session.printed[657]),
        (65, 32, 65, 66)
    );
}

#[test]
fn cut_and_unknown_records() {
    assert_eq!(refused(OPENING, &[1, 0, 2, 0, 65, 1, 0, 1]), 20);
    assert_eq!(refused(OPENING, &[1, 0, 1, 1, 65]), 21);
    assert_eq!(refused(OPENING, &[record(9, b"A"), record(1, &[65; 4097])].concat()), 21);
    assert_eq!(refused(OPENING, &[record(1, &[65; 4097]), record(9, b"A")].concat()), 21);
    assert_eq!(refused(OPENING, &packed(&[b"A", &[65; 4097]])), 2);
}

#[test]
fn while_bytes_wait() {
    assert_eq!(refused(waiting(), &[]), 16);
    assert_eq!(refused(waiting(), &[65]), 20);
    assert_eq!(refused(waiting(), &[0, 0, 9, 0]), 21);
}

#[test]
fn each_body_is_a_message_of_its_own() {
    let mut session = Session::open();
    let bodies: [&[u8]; 3] = [&[27, 209, 1], &[27, 209], &[66, 27, 61, 99, 32, 67]];
    let (answer, record) = session.pack(&packed(&bodies), 0);
    assert_eq!((answer.taken, answer.accepted, answer.first, record, answer.offset), (11, 2, 11, 3, 1));
    assert_eq!((answer.parameter, session.settings.selected), (1, 0));
}

#[test]
fn an_empty_pack_does_nothing() {
    let mut session = Session::open();
    session.shown.fill(7);
    let before = session.settings;
    assert_eq!(session.pack(&[], 0), (Answer::default(), 0));
    assert_eq!((session.settings, &session.shown), (before, &vec![7; SHOWN]));
    // an empty body is a message, and paints
    session.settings = key_text(session.settings, 1, b"ABCDEFGH").0;
    assert_eq!(session.pack(&[0, 0, 1, 0], 0), (Answer::default(), 0));
    assert!(session.shown.iter().all(|&code| code == 32));
}

// ---- the order of the numbers ----

#[test]
fn numbers_in_their_order() {
    let unsound = Settings { step: 0, ..waiting() };
    let long = vec![0; 60_001];
    let cut = [&packed(&[b"A"])[..], &[9]].concat();
    for store in 0..4 {
        let mut sizes = SIZES;
        sizes[store] -= 1;
        assert_eq!(refused_on(unsound, &long, sizes), 1);
    }
    assert_eq!(refused(unsound, &long), 19);
    assert_eq!(refused(unsound, &[record(9, &[65; 5000]), vec![1]].concat()), 20);
    assert_eq!(refused(unsound, &record(9, &[65; 5000])), 21);
    assert_eq!(refused(unsound, &record(1, &[65; 4097])), 2);
    assert_eq!(refused(unsound, &packed(&[b"A"])), 3);
    assert_eq!(refused(unsound, &[]), 3);
    assert_eq!(refused(waiting(), &packed(&[b"A"])), 16);
    assert_eq!(refused(OPENING, &cut), 20);
    for length in 1..cut.len() {
        let whole = length == 5;
        assert_eq!(refused(OPENING, &cut[..length]), if whole { 0 } else { 20 });
    }
}

#[test]
fn the_longest_pack() {
    let full = packed(&[&[66; 4096][..]; 14]);
    let rest = 60_000 - full.len() - 4;
    let full = [full, record(1, &vec![66; rest])].concat();
    assert_eq!((full.len(), refused(OPENING, &full)), (60_000, 0));
    let mut session = Session::open();
    assert_eq!(session.pack(&full, 0).0.taken, 60_000 - 15 * 4);
}

// ---- one by one ----

#[test]
fn one_by_one() {
    let bodies: [&[u8]; 7] = [
        b"text\x1bP",
        &[27, 208, 2, 10, 20, 35],
        b"",
        b"more\x1b\xd1\x01right\x1bP\x1b\x01",
        &[27, 208, 3, 27, 199, 1, 9, 0, 9],
        &[27, 61, 99, 99, 27, 80],
        &[27],
    ];
    for room in [0, 655, 656, 1311, 1312, 5000, 5151, 5152, 9000] {
        let mut together = Session::open();
        let (total, record) = together.pack(&packed(&bodies), room);
        let mut single = Session::open();
        let mut summed = Answer::default();
        let mut at = 0;
        for (number, body) in (1..).zip(bodies) {
            let answer = single.play(body, room - summed.printed);
            summed.taken += answer.taken;
            summed.accepted += answer.accepted;
            summed.refused += answer.refused;
            summed.printed += answer.printed;
            if summed.first == 0 && answer.first != 0 {
                (summed.first, summed.offset, summed.parameter) =
                    (answer.first, answer.offset, answer.parameter);
                at = number;
            }
        }
        assert_eq!((total, record), (summed, at), "{room}");
        assert_eq!((together.settings, together.printed), (single.settings, single.printed));
        assert_eq!((together.cells, together.layer), (single.cells, single.layer));
        assert_eq!((together.shown, together.dots), (single.shown, single.dots));
    }
}

#[test]
fn replay_of_packs() {
    let recording = [
        record(5, &packed(&[b"A", &[27, 61, 99, 32]])),
        record(5, &[]),
        record(5, &[1, 0, 1]),
        record(2, &[27]),
        record(5, &[]),
    ];
    let text = replay(&recording.concat());
    let lines: Vec<&str> = text.lines().collect();
    assert_eq!(
        lines[0],
        "1 answer 0 taken 5 accepted 0 refused 1 first 11 at 0 printed 0 parameter 1 record 2"
    );
    assert_eq!(
        lines[1],
        "2 answer 0 taken 0 accepted 0 refused 0 first 0 at 0 printed 0 parameter 0 record 0"
    );
    assert!(lines[2].starts_with("3 answer 20 ") && lines[2].ends_with(" record 0"));
    assert!(lines[4].starts_with("5 answer 16 ") && lines[4].ends_with(" record 0"));
}
