//! Document 02, P6: what a copy could get wrong of packs.

use super::{entry, Break};

#[rustfmt::skip]
pub const BREAKS: &[Break] = &[
    // room and copies
    entry("whole-room-for-each", "pack.rs",
        "let room = &mut printer[total.answer.printed..];
        let served = message(total.settings, body, cells, layer, shown, dots, room);",
        "let mut whole = vec![0; printer.len()];
        let served = message(total.settings, body, cells, layer, shown, dots, &mut whole);
        let end = whole.len().min(total.answer.printed + served.1.printed);
        let start = total.answer.printed.min(end);
        printer[start..end].copy_from_slice(&whole[..end - start]);"),
    entry("copies-from-the-buffers-start", "pack.rs",
        "let room = &mut printer[total.answer.printed..];",
        "let left = printer.len() - total.answer.printed;
        let room = &mut printer[..left];"),
    entry("printed-of-the-last", "pack.rs",
        "total.printed += answer.printed;",
        "total.printed = total.printed.max(answer.printed);"),
    // offset, record, parameter
    entry("offset-in-the-pack", "pack.rs",
        "total.offset = answer.offset;",
        "total.offset = answer.offset + 4 * number + total.taken - answer.taken;"),
    entry("offset-in-the-bodies-joined", "pack.rs",
        "total.offset = answer.offset;",
        "total.offset = answer.offset + total.taken - answer.taken;"),
    entry("record-from-0", "pack.rs", "self.record = number;", "self.record = number - 1;"),
    entry("record-left-out", "pack.rs", "self.record = number;", ""),
    entry("record-of-the-last-refusal", "pack.rs",
        "total.printed += answer.printed;",
        "total.printed += answer.printed;
        if answer.first != 0 {
            self.record = number;
        }"),
    entry("record-counts-without-empty-ones", "pack.rs",
        "self.record = number;",
        "self.record = number.min(total.taken);"),
    entry("refusal-of-the-last-record", "pack.rs",
        "if total.first == 0 && answer.first != 0 {",
        "if answer.first != 0 {"),
    entry("parameter-not-passed-on", "pack.rs", "total.parameter = answer.parameter;", ""),
    entry("parameter-of-a-later-record", "pack.rs",
        "if total.first == 0 && answer.first != 0 {",
        "if total.parameter == 0 && total.first != 0 {
            total.parameter = answer.parameter;
        }
        if total.first == 0 && answer.first != 0 {"),
    // counts
    entry("taken-with-headers", "pack.rs", "total.taken += answer.taken;", "total.taken += answer.taken + 4;"),
    entry("taken-of-the-last", "pack.rs", "total.taken += answer.taken;", "total.taken = answer.taken;"),
    entry("accepted-of-the-last", "pack.rs", "total.accepted += answer.accepted;", "total.accepted = answer.accepted;"),
    entry("refused-of-the-last", "pack.rs", "total.refused += answer.refused;", "total.refused = answer.refused;"),
    entry("pack-resets-the-count", "pack.rs",
        "(total.settings, total.answer, total.record)",
        "(Settings { count: 0, ..total.settings }, total.answer, total.record)"),
    entry("pack-adds-to-the-count", "pack.rs",
        "(total.settings, total.answer, total.record)",
        "(Settings { count: total.settings.count + total.answer.taken, ..total.settings }, total.answer, total.record)"),
    // what is served
    entry("empty-pack-paints", "pack.rs",
        "for (number, body) in (1..).zip(bodies) {",
        "let bodies = if bodies.is_empty() { vec![&pack[..0]] } else { bodies };
    for (number, body) in (1..).zip(bodies) {"),
    entry("empty-body-does-not-paint", "pack.rs",
        "for (number, body) in (1..).zip(bodies) {",
        "for (number, body) in (1..).zip(bodies).filter(|(_, body)| !body.is_empty()) {"),
    entry("stops-at-a-refusal", "pack.rs",
        "for (number, body) in (1..).zip(bodies) {",
        "for (number, body) in (1..).zip(bodies) {
        if total.answer.first != 0 {
            break;
        }"),
    entry("last-record-left-out", "pack.rs",
        "for (number, body) in (1..).zip(bodies) {",
        "let few = bodies.len().max(2) - 1;
    for (number, body) in (1..).zip(bodies).take(few) {"),
    entry("bodies-joined", "pack.rs",
        "for (number, body) in (1..).zip(bodies) {",
        "let joined = bodies.concat();
    let bodies = if bodies.is_empty() { bodies } else { vec![&joined[..]] };
    for (number, body) in (1..).zip(bodies) {"),
    entry("each-from-the-packs-settings", "pack.rs",
        "let served = message(total.settings, body,",
        "let served = message(settings, body,"),
    entry("obeyed-before-the-check-has-ended", "pack.rs",
        "Err(number) => return (settings, Answer { number, ..Answer::default() }, 0),",
        "Err(number) => {
            let first = records(pack).and_then(|records| records.first().copied());
            if let (21, Some((MESSAGE, body))) = (number, first) {
                message(settings, body, cells, layer, shown, dots, printer);
            }
            return (settings, Answer { number, ..Answer::default() }, 0);
        }"),
    entry("refused-pack-names-a-record", "pack.rs",
        "Err(number) => return (settings, Answer { number, ..Answer::default() }, 0),",
        "Err(number) => return (settings, Answer { number, ..Answer::default() }, 1),"),
    // what is refused
    entry("kind-of-a-pack-by-its-low-byte", "pack.rs", "|&(kind, _)| kind != MESSAGE", "|&(kind, _)| kind & 255 != MESSAGE"),
    entry("kind-of-a-pack-by-its-high-byte", "pack.rs", "|&(kind, _)| kind != MESSAGE", "|&(kind, _)| kind >> 8 != 0"),
    entry("kind-of-the-first-record-alone", "pack.rs",
        "if records.iter().any(|&(kind, _)| kind != MESSAGE) {",
        "if records.first().is_some_and(|&(kind, _)| kind != MESSAGE) {"),
    entry("kind-0-taken", "pack.rs", "|&(kind, _)| kind != MESSAGE", "|&(kind, _)| kind > MESSAGE"),
    entry("pack-of-60000-too-long", "pack.rs", "pack.len() > LONGEST_PACK", "pack.len() >= LONGEST_PACK"),
    entry("pack-of-60001-taken", "pack.rs", "pack.len() > LONGEST_PACK", "pack.len() > LONGEST_PACK + 1"),
    entry("body-of-4096-refused", "pack.rs", "body.len() > LONGEST_MESSAGE", "body.len() >= LONGEST_MESSAGE"),
    entry("long-body-skipped", "pack.rs", "body.len() > LONGEST_MESSAGE", "false"),
    entry("short-head-overlooked", "records.rs", "= rest else { return None };", "= rest else { return Some(records) };"),
    entry("cut-body-taken", "records.rs",
        "if after.len() < length {
            return None;
        }",
        "let length = length.min(after.len());"),
    entry("lengths-high-byte-first", "records.rs",
        "u16::from_le_bytes([*low, *high])",
        "u16::from_be_bytes([*low, *high])"),
    entry("length-with-the-head", "records.rs",
        "let length = usize::from(u16::from_le_bytes([*low, *high]));",
        "let length = usize::from(u16::from_le_bytes([*low, *high])).max(4) - 4;"),
    entry("19-judged-after-20", "pack.rs",
        "return Err(19);",
        "return Err(if records(pack).is_none() { 20 } else { 19 });"),
    entry("19-judged-before-1", "pack.rs",
        "{ Err(1) }",
        "{ Err(if pack.len() > LONGEST_PACK { 19 } else { 1 }) }"),
    entry("21-of-a-pack-judged-before-20", "records.rs",
        "records.push((u16::from_le_bytes([*kind_low, *kind_high]), &after[..length]));",
        "records.push((u16::from_le_bytes([*kind_low, *kind_high]), &after[..length]));
        if *kind_low != 1 {
            return Some(records);
        }"),
    entry("2-judged-before-21", "pack.rs",
        "return Err(21);",
        "return Err(if records.iter().any(|(_, body)| body.len() > LONGEST_MESSAGE) { 2 } else { 21 });"),
    entry("3-judged-before-2-of-a-pack", "pack.rs",
        "return Err(2);",
        "return Err(if sound(settings) { 2 } else { 3 });"),
    entry("3-judged-before-20", "pack.rs",
        "let records = records(pack).ok_or(20)?;",
        "let records = records(pack).ok_or(if sound(settings) { 20 } else { 3 })?;"),
    entry("16-judged-before-3-of-a-pack", "pack.rs",
        "return Err(3);",
        "return Err(if settings.held > 0 { 16 } else { 3 });"),
    entry("16-judged-before-21", "pack.rs",
        "return Err(21);",
        "return Err(if settings.held > 0 && sound(settings) { 16 } else { 21 });"),
    entry("empty-pack-served-while-bytes-wait", "pack.rs", "if settings.held > 0 {", "if settings.held > 0 && !pack.is_empty() {"),
    entry("pack-served-while-bytes-wait", "pack.rs", "if settings.held > 0 {", "if false {"),
    entry("empty-pack-served-unsound", "pack.rs", "if !sound(settings) {", "if !sound(settings) && !pack.is_empty() {"),
];
