//! The classes that traces reach: refusals, which of two comes first, and
//! what ends a press.

use super::write::{Record, PRESS, RELEASE};
use super::Call;
use crate::classes::Classes;
use reference::sound;
use reference::text::record;

#[rustfmt::skip]
pub const CLASSES: &[&str] = &[
    "answer 0", "answer 3", "answer 19", "answer 20", "answer 21", "answer 24", "answer 25",
    "order: 3 with 19", "order: 3 with 20", "order: 19 with 20", "order: 19 with 21", "order: 20 with 21", "order: 21 with 24", "order: 24 with 25",
    "21 by the kind", "21 by a short body", "21 by a long body", "21 by the kind's high byte",
    "24 at a release", "equal ticks", "trace empty", "trace of 59,994", "trace of 60,000", "trace of 60,001",
    "press ended by its release", "press ended by its own key", "press ended by another key", "press ended by the last record",
    "press as the last record", "another release while a key repeats", "release of a key that is not down",
    "no repeat before the end", "one repeat", "several repeats", "repeat due just at the end", "repeat one tick below the end",
    "repeat off where one was due", "delay ends beyond the greatest tick", "repeat in the last ticks",
    "output just large enough", "output one byte too small", "output larger", "output empty for no code",
];

/// Counts the classes that a call belongs to.
pub fn reached(call: &Call, number: u8, classes: &mut Classes) {
    let answers = [
        (0, "answer 0"),
        (3, "answer 3"),
        (19, "answer 19"),
        (20, "answer 20"),
        (21, "answer 21"),
        (24, "answer 24"),
        (25, "answer 25"),
    ];
    let answer = answers.iter().find(|&&(answer, _)| answer == number).expect("a number of the trace");
    classes.count(answer.1);
    let records = split(&call.trace);
    let long = call.trace.len() > 60_000;
    let cut = records.is_none();
    let odd = odd(&call.trace);
    if !sound(&call.settings) {
        classes.count_if(long, "order: 3 with 19");
        return classes.count_if(cut, "order: 3 with 20");
    }
    lengths(call, classes);
    if long {
        classes.count_if(cut, "order: 19 with 20");
        return classes.count_if(odd.is_some(), "order: 19 with 21");
    }
    if cut {
        return classes.count_if(odd.is_some(), "order: 20 with 21");
    }
    let good: Vec<Record> = records.unwrap().into_iter().flatten().collect();
    let falls = good.windows(2).find(|pair| pair[1].1 < pair[0].1);
    if let Some(how) = odd {
        classes.count(how);
        return classes.count_if(falls.is_some(), "order: 21 with 24");
    }
    if let Some(pair) = falls {
        let presses = good.iter().filter(|record| record.0 == PRESS).count();
        classes.count_if(call.output.len() < 5 * presses, "order: 24 with 25");
        return classes.count_if(pair[1].0 == RELEASE, "24 at a release");
    }
    presses(call, &good, classes);
    outputs(call, number, classes);
}

/// Every record of the trace, none for an odd one; none at all if it is cut.
fn split(trace: &[u8]) -> Option<Vec<Option<Record>>> {
    let mut at = 0;
    let mut records = Vec::new();
    while at < trace.len() {
        let (kind, body) = record(trace, at)?;
        at += 4 + body.len();
        let good = (kind == PRESS || kind == RELEASE) && body.len() == 5;
        let tick = || u32::from_le_bytes(body[..4].try_into().unwrap());
        records.push(good.then(|| (kind, tick(), body[4])));
    }
    Some(records)
}

/// How the first odd record is odd, also in a trace that is cut later.
fn odd(trace: &[u8]) -> Option<&'static str> {
    let mut at = 0;
    while let Some((kind, body)) = record(trace, at) {
        at += 4 + body.len();
        match (kind, body.len()) {
            (PRESS | RELEASE, 5) => {}
            (PRESS | RELEASE, 0..=4) => return Some("21 by a short body"),
            (PRESS | RELEASE, _) => return Some("21 by a long body"),
            (257 | 258, _) => return Some("21 by the kind's high byte"),
            _ => return Some("21 by the kind"),
        }
    }
    None
}

fn lengths(call: &Call, classes: &mut Classes) {
    match call.trace.len() {
        0 => classes.count("trace empty"),
        59_994 => classes.count("trace of 59,994"),
        60_000 => classes.count("trace of 60,000"),
        60_001 => classes.count("trace of 60,001"),
        _ => {}
    }
}

/// What ends each press of a good trace, and where its repeats lie.
fn presses(call: &Call, records: &[Record], classes: &mut Classes) {
    classes.count_if(records.windows(2).any(|pair| pair[0].1 == pair[1].1), "equal ticks");
    // a long trace says no more, and takes long
    let records = &records[..records.len().min(40)];
    for (at, &(kind, tick, key)) in records.iter().enumerate() {
        let down = records[..at].iter().any(|&(kind, _, other)| kind == PRESS && other == key);
        classes.count_if(kind == RELEASE && !down, "release of a key that is not down");
        if kind == RELEASE {
            continue;
        }
        let later = &records[at + 1..];
        let end = later.iter().position(|&(kind, _, other)| kind == PRESS || other == key);
        classes.count(match end {
            Some(after) if later[after].0 == RELEASE => "press ended by its release",
            Some(after) if later[after].2 == key => "press ended by its own key",
            Some(_) => "press ended by another key",
            None if later.is_empty() => "press as the last record",
            None => "press ended by the last record",
        });
        let between = end.unwrap_or(later.len().saturating_sub(1));
        classes.count_if(between > 0, "another release while a key repeats");
        let end = end.map(|after| later[after]).or(later.last().copied()).map_or(tick, |(_, tick, _)| tick);
        repeats(call, tick, end, classes);
    }
}

/// Where the repeats of a press lie against its end.
fn repeats(call: &Call, tick: u32, end: u32, classes: &mut Classes) {
    let keys = &call.settings.keys;
    let first = u64::from(tick) + 4 * u64::from(keys.delay);
    let (end, interval) = (u64::from(end), u64::from(keys.interval));
    if keys.repeat == 0 {
        return classes.count_if(first < end, "repeat off where one was due");
    }
    classes.count_if(first > u64::from(u32::MAX), "delay ends beyond the greatest tick");
    classes.count_if(first < end && end > u64::from(u32::MAX - 6), "repeat in the last ticks");
    if first >= end {
        classes.count("no repeat before the end");
    } else {
        classes.count(if first + interval >= end { "one repeat" } else { "several repeats" });
        classes.count_if((end - 1 - first) % interval == 0, "repeat one tick below the end");
    }
    classes.count_if(end >= first && (end - first) % interval == 0, "repeat due just at the end");
}

fn outputs(call: &Call, number: u8, classes: &mut Classes) {
    let mut codes = vec![0; 20_000];
    let (found, count) = reference::repeats::key_repeats(call.settings, &call.trace, &mut codes);
    let (room, needed) = (call.output.len(), 5 * count);
    if found != 0 {
        return;
    }
    classes.count_if(number == 0 && needed > 0 && room == needed, "output just large enough");
    classes.count_if(number == 25 && room + 1 == needed, "output one byte too small");
    classes.count_if(room > needed, "output larger");
    classes.count_if(room == 0 && needed == 0, "output empty for no code");
}
