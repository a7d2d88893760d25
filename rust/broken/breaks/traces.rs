//! Document 02, P13: what a copy could get wrong of key repeats.

use super::{entry, Break};

#[rustfmt::skip]
pub const BREAKS: &[Break] = &[
    entry("repeat-at-the-end-too", "repeats.rs",
        "// the records of this tick come first: what they end is ended",
        "keyboard.repeat(now);"),
    entry("repeat-at-the-last-record-too", "repeats.rs",
        "        if next == records.len() {
            return Some(keyboard.codes);
        }
        keyboard.repeat(now);",
        "        keyboard.repeat(now);
        if next == records.len() {
            return (keyboard.codes.len() <= most).then_some(keyboard.codes);
        }"),
    entry("delay-not-times-4", "repeats.rs", "4 * u32::from(self.settings.keys.delay)", "u32::from(self.settings.keys.delay)"),
    entry("delay-is-the-interval", "repeats.rs", "4 * u32::from(self.settings.keys.delay)", "4 * u32::from(self.settings.keys.interval)"),
    entry("interval-is-the-delay", "repeats.rs", "u32::from(self.settings.keys.interval)", "u32::from(self.settings.keys.delay)"),
    entry("other-releases-end", "repeats.rs", "} else if held_key == Some(key) {", "} else {"),
    entry("release-ends-nothing", "repeats.rs", "} else if held_key == Some(key) {", "} else if false {"),
    entry("press-of-the-same-key-goes-on", "repeats.rs",
        "self.held = (self.settings.keys.repeat == 1).then_some((key, due));",
        "if held_key != Some(key) {
                self.held = (self.settings.keys.repeat == 1).then_some((key, due));
            }"),
    entry("another-press-does-not-end", "repeats.rs",
        "self.held = (self.settings.keys.repeat == 1).then_some((key, due));",
        "if self.held.is_none() {
                self.held = (self.settings.keys.repeat == 1).then_some((key, due));
            }"),
    entry("repeats-with-repeat-off", "repeats.rs", "(self.settings.keys.repeat == 1)", "(true)"),
    entry("press-sends-nothing-with-repeat-off", "repeats.rs",
        "self.codes.push((tick, key));",
        "if self.settings.keys.repeat == 1 {
                self.codes.push((tick, key));
            }"),
    entry("equal-ticks-fall", "repeats.rs", "pair[1].tick < pair[0].tick", "pair[1].tick <= pair[0].tick"),
    entry("24-of-presses-alone", "repeats.rs",
        "pair[1].tick < pair[0].tick",
        "pair[1].press && pair[1].tick < pair[0].tick"),
    entry("trace-of-60000-too-long", "repeats.rs", "trace.len() > LONGEST_TRACE", "trace.len() >= LONGEST_TRACE"),
    entry("19-judged-before-3", "repeats.rs",
        "return Err(3);",
        "return Err(if trace.len() > LONGEST_TRACE { 19 } else { 3 });"),
    entry("21-judged-before-20", "records.rs",
        "records.push((u16::from_le_bytes([*kind_low, *kind_high]), &after[..length]));",
        "records.push((u16::from_le_bytes([*kind_low, *kind_high]), &after[..length]));
        if length != 5 || *kind_low == 0 || *kind_low > 2 {
            return Some(records);
        }"),
    entry("24-judged-before-21", "repeats.rs",
        "else { return Err(21) };",
        "else {
            let falls = records.windows(2).any(|pair: &[Record]| pair[1].tick < pair[0].tick);
            return Err(if falls { 24 } else { 21 });
        };"),
    entry("25-judged-before-24", "repeats.rs",
        "Err(number) => (number, 0),",
        "Err(24) if output.len() < CODE => (25, 0),
        Err(number) => (number, 0),"),
    entry("longer-bodies-taken", "repeats.rs", "&[a, b, c, d, key])", "&[a, b, c, d, key, ..])"),
    entry("kind-by-its-low-byte", "repeats.rs", "= (kind, body) else", "= (kind & 255, body) else"),
    entry("25-where-it-just-fits", "repeats.rs", "if keyboard.codes.len() > most {", "if keyboard.codes.len() >= most.max(1) {"),
    entry("25-by-whole-codes-rounded-up", "repeats.rs",
        "output.len() / CODE",
        "output.len().div_ceil(CODE)"),
    entry("output-cleared-behind", "repeats.rs",
        "(0, codes.len())",
        "output[CODE * codes.len()..].fill(0);
            (0, codes.len())"),
    entry("tick-written-high-byte-first", "repeats.rs", "&tick.to_le_bytes()", "&tick.to_be_bytes()"),
    entry("tick-of-two-bytes", "repeats.rs", "u32::from_le_bytes([a, b, c, d]), key", "u32::from_le_bytes([a, b, 0, 0]), key"),
];
