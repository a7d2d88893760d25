//! Records of a trace, and the request's own examples.

use super::Call;
use reference::settings::OPENING;
use reference::Settings;

pub const PRESS: u16 = 1;
pub const RELEASE: u16 = 2;

/// Kind, tick and key.
pub type Record = (u16, u32, u8);

pub fn put(trace: &mut Vec<u8>, (kind, tick, key): Record) {
    put_body(trace, kind, &[&tick.to_le_bytes()[..], &[key]].concat());
}

pub fn put_body(trace: &mut Vec<u8>, kind: u16, body: &[u8]) {
    trace.extend((body.len() as u16).to_le_bytes());
    trace.extend(kind.to_le_bytes());
    trace.extend(body);
}

pub fn trace(records: &[Record]) -> Vec<u8> {
    let mut bytes = Vec::new();
    records.iter().for_each(|&record| put(&mut bytes, record));
    bytes
}

fn call(settings: Settings, records: &[Record], room: usize) -> Call {
    Call { settings, trace: trace(records), output: vec![7; room] }
}

/// The request's own examples, from the opening's 32 and 16.
#[rustfmt::skip]
pub fn named() -> Vec<Call> {
    const UNKNOWN: u16 = 3;
    let until = |end: u32| [(PRESS, 0, 65), (RELEASE, end, 65)];
    let good = |records: &[Record]| call(OPENING, records, 1_000);
    let mut off = OPENING;
    off.keys.repeat = 0;
    let mut cut = call(OPENING, &[(UNKNOWN, 0, 65), (PRESS, 0, 65)], 0);
    cut.trace.pop();
    vec![
        good(&until(160)), good(&until(161)), good(&until(128)), good(&until(129)),
        good(&[(PRESS, 0, 65), (RELEASE, 1000, 66)]), good(&[(PRESS, 0, 65), (PRESS, 128, 65)]),
        good(&[(PRESS, 0, 65)]), good(&[(PRESS, 4_294_967_290, 65), (RELEASE, 4_294_967_295, 65)]),
        cut, good(&[(PRESS, 5, 65), (RELEASE, 4, 65), (UNKNOWN, 9, 65)]), good(&[(PRESS, 5, 65), (RELEASE, 4, 65)]),
        call(OPENING, &until(160), 14), call(OPENING, &until(160), 15), call(OPENING, &until(160), 16),
        call(off, &until(900), 99), good(&[]), call(OPENING, &[], 0), call(Settings { step: 0, ..OPENING }, &[], 0),
        good(&[(PRESS, 0, 65), (PRESS, 10, 66), (RELEASE, 20, 65), (RELEASE, 139, 66)]),
    ]
}
