//! Document 02, P13, by arithmetic: each press's end and count at once.

use crate::sound;
use reference::Settings;

struct Record {
    press: bool,
    tick: u64,
    key: u8,
}

pub fn key_repeats(settings: &Settings, trace: &[u8], output: &mut [u8]) -> (u8, usize) {
    let records = match read(settings, trace) {
        Ok(records) => records,
        Err(number) => return (number, 0),
    };
    let keys = &settings.keys;
    let (delay, interval) = (4 * u64::from(keys.delay), u64::from(keys.interval));
    let codes_of = |at: usize| -> u64 {
        let start = records[at].tick + delay;
        let end = end_of(&records, at);
        if keys.repeat == 0 || end <= start {
            1
        } else {
            1 + (end - start).div_ceil(interval)
        }
    };
    let presses = || (0..records.len()).filter(|&at| records[at].press);
    let total: u64 = presses().map(codes_of).sum();
    if 5 * total > output.len() as u64 {
        return (25, 0);
    }
    let mut places = output.chunks_exact_mut(5);
    for at in presses() {
        let Record { tick, key, .. } = records[at];
        for code in 0..codes_of(at) {
            let sent = if code == 0 { tick } else { tick + delay + (code - 1) * interval };
            let place = places.next().expect("there is room");
            place[..4].copy_from_slice(&(sent as u32).to_le_bytes());
            place[4] = key;
        }
    }
    (0, total as usize)
}

fn read(settings: &Settings, trace: &[u8]) -> Result<Vec<Record>, u8> {
    if !sound(settings) {
        return Err(3);
    }
    if trace.len() > 60_000 {
        return Err(19);
    }
    let (mut at, mut odd, mut records) = (0, false, Vec::new());
    while at < trace.len() {
        let head = trace.get(at..at + 4).ok_or(20)?;
        let end = at + 4 + usize::from(head[0]) + 256 * usize::from(head[1]);
        let body = trace.get(at + 4..end).ok_or(20)?;
        let kind = u32::from(head[2]) + 256 * u32::from(head[3]);
        if body.len() == 5 && (kind == 1 || kind == 2) {
            let tick = (0..4).map(|at| u64::from(body[at]) << (8 * at)).sum();
            records.push(Record { press: kind == 1, tick, key: body[4] });
        } else {
            odd = true;
        }
        at = end;
    }
    if odd {
        return Err(21);
    }
    if records.is_sorted_by_key(|record| record.tick) {
        Ok(records)
    } else {
        Err(24)
    }
}

/// The tick of the record that ends a press.
fn end_of(records: &[Record], press: usize) -> u64 {
    let key = records[press].key;
    let ends = |record: &&Record| record.press || record.key == key;
    let last = &records[records.len() - 1];
    records[press + 1..].iter().find(ends).unwrap_or(last).tick
}
