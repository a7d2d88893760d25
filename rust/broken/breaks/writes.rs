//! Document 02, P7: what a copy could get wrong of the sequences written.

use super::{entry, Break};

#[rustfmt::skip]
pub const BREAKS: &[Break] = &[
    // the bytes
    entry("209-short", "write.rs",
        "Item::Sequence { second, parameters } => Ok([",
        "Item::Sequence { second: 209, parameters: [0] } => Ok(vec![ESC, 209]),
        Item::Sequence { second, parameters } => Ok(["),
    entry("209-as-given", "write.rs", "Ok([&[ESC, second], parameters].concat()),", "Ok(given.clone()),"),
    entry("209-alone-refused-by-12", "write.rs",
        "Item::Sequence { second, parameters } => Ok([",
        "Item::Sequence { second: 209, .. } if given.len() == 2 => Err((12, 0)),
        Item::Sequence { second, parameters } => Ok(["),
    entry("byte-behind-touched", "write.rs",
        "space[..bytes.len()].copy_from_slice(&bytes);",
        "space[..bytes.len()].copy_from_slice(&bytes);
    if let Some(behind) = space.get_mut(bytes.len()) {
        *behind = 0;
    }"),
    entry("thirteen-bytes-laid", "write.rs",
        "space[..bytes.len()].copy_from_slice(&bytes);",
        "let laid = space.len().min(13);
    space[..laid].fill(0);
    space[..bytes.len()].copy_from_slice(&bytes);"),
    entry("written-from-the-buffers-start", "write.rs",
        "space[..bytes.len()].copy_from_slice(&bytes);",
        "buffer[..bytes.len()].copy_from_slice(&bytes);"),
    entry("61-as-line-and-column", "write.rs",
        "Item::Sequence { second, parameters } => Ok([",
        "Item::Sequence { second: 61, parameters } => Ok(vec![ESC, 61, parameters[0] - 31, parameters[1] - 31]),
        Item::Sequence { second, parameters } => Ok(["),
    entry("parameters-turned-round", "write.rs",
        "Ok([&[ESC, second], parameters].concat()),",
        "Ok([ESC, second].into_iter().chain(parameters.iter().rev().copied()).collect()),"),
    entry("parameter-27-written-twice", "write.rs",
        "Ok([&[ESC, second], parameters].concat()),",
        "Ok([ESC, second].into_iter().chain(parameters.iter().flat_map(|&byte| vec![byte; 1 + usize::from(byte == ESC)])).collect()),"),
    entry("last-row-of-a-pattern-lost", "write.rs",
        "Item::Sequence { second, parameters } => Ok([",
        "Item::Sequence { second: 224, parameters } => Ok([&[ESC, 224], &parameters[..8], &[0]].concat()),
        Item::Sequence { second, parameters } => Ok(["),
    // the order of the numbers
    entry("22-before-11", "write.rs",
        "Err((number, parameter)) => return (place, number, parameter),",
        "Err((11, _)) if buffer.len().saturating_sub(place) < 2 + parameters.len() => return (place, 22, 0),
        Err((number, parameter)) => return (place, number, parameter),"),
    entry("22-before-10-and-12", "write.rs",
        "Err((number, parameter)) => return (place, number, parameter),",
        "Err((10 | 12, _)) if buffer.len().saturating_sub(place) < 2 + parameters.len() => return (place, 22, 0),
        Err((number, parameter)) => return (place, number, parameter),"),
    entry("22-before-3", "write.rs",
        "Err((number, parameter)) => return (place, number, parameter),",
        "Err((3, _)) if buffer.len().saturating_sub(place) < 2 + parameters.len() => return (place, 22, 0),
        Err((number, parameter)) => return (place, number, parameter),"),
    entry("3-after-11", "write.rs",
        "return Err((3, 0));",
        "let measures = Settings { mode: settings.mode & 3, selected: settings.selected & 1, ..*settings };
        if let (Item::Refusal { number: 11, parameter }, _) = read(&[&[ESC, second], parameters].concat(), &measures, 3840) {
            return Err((11, parameter));
        }
        return Err((3, 0));"),
    entry("3-after-10", "write.rs",
        "return Err((3, 0));",
        "return Err(if super::read::length(second, None).is_none() { (10, 0) } else { (3, 0) });"),
    entry("3-never", "write.rs",
        "if !sound(settings) {",
        "if !sound(settings) && (settings.mode > 3 || settings.selected > 1) {"),
    entry("3-not-of-what-waits", "write.rs",
        "if !sound(settings) {",
        "if !sound(&Settings { held: 0, waiting: [0; 12], count: 0, ..*settings }) {"),
    // the reader
    entry("16-while-bytes-wait", "write.rs",
        "let given = [&[ESC, second], parameters].concat();",
        "if settings.held > 0 {
        return Err((16, 0));
    }
    let given = [&[ESC, second], parameters].concat();"),
    entry("read-behind-what-waits", "write.rs",
        "let (item, length) = read(&given, settings, copy_size(settings));",
        "let waits = &settings.waiting[..settings.held.into()];
    let line = [waits, &given].concat();
    if let (Item::Refusal { number, parameter }, _) = read(&line, settings, copy_size(settings)) {
        return Err((number, parameter));
    }
    let (item, length) = read(&given, settings, copy_size(settings));"),
    entry("13-given", "write.rs", "read(&given, settings, copy_size(settings));", "read(&given, settings, 0);"),
    entry("13-by-the-buffer", "write.rs",
        "let bytes = match spelled(",
        "if sound(&settings) && second == 80 && parameters.is_empty() && buffer.len() < 656 {
        return (place, 13, 0);
    }
    let bytes = match spelled("),
    entry("13-in-mode-3", "write.rs", "read(&given, settings, copy_size(settings));", "read(&given, settings, 656);"),
    entry("by-the-other-screen", "write.rs",
        "let (item, length) = read(&given, settings, copy_size(settings));",
        "let other = settings.selected ^ u8::from(settings.mode != 3);
    let (item, length) = read(&given, &Settings { selected: other, ..*settings }, copy_size(settings));"),
    entry("by-mode-0", "write.rs",
        "read(&given, settings, copy_size(settings));",
        "read(&given, &Settings { mode: 0, ..*settings }, copy_size(settings));"),
    entry("198-judged-by-the-writer", "write.rs",
        "let (item, length) = read(&given, settings, copy_size(settings));",
        "let judge = if matches!(second, 198 | 199) { Settings { mode: 3, ..*settings } } else { *settings };
    let (item, length) = read(&given, &judge, copy_size(settings));"),
    entry("parameter-not-passed-on", "write.rs",
        "Item::Refusal { number, parameter } => Err((number, parameter)),",
        "Item::Refusal { number, .. } => Err((number, 0)),"),
    entry("parameter-from-0", "write.rs",
        "Item::Refusal { number, parameter } => Err((number, parameter)),",
        "Item::Refusal { number, parameter } => Err((number, parameter.saturating_sub(1))),"),
    entry("too-many-written-in-part", "write.rs", "if length < given.len() {", "if false {"),
    entry("too-many-written", "write.rs",
        "return Err((10, 0));",
        "return match item {
            Item::Sequence { .. } => Ok(given),
            _ => Err((10, 0)),
        };"),
    entry("too-many-is-12", "write.rs",
        "return Err((10, 0));",
        "return Err(if length == 2 && super::read::length(second, None).is_none() { (10, 0) } else { (12, 0) });"),
    entry("too-many-judged-after-11", "write.rs",
        "return Err((10, 0));",
        "return Err(match item {
            Item::Refusal { number, parameter } => (number, parameter),
            _ => (10, 0),
        });"),
    entry("too-few-filled-with-0", "write.rs",
        "let given = [&[ESC, second], parameters].concat();",
        "let mut given = [&[ESC, second], parameters].concat();
    let listed = super::read::length(second, parameters.first().copied()).unwrap_or(0);
    given.resize(given.len().max(listed), 0);"),
    // place and space
    entry("place-moves-when-refused", "write.rs",
        "Err((number, parameter)) => return (place, number, parameter),",
        "Err((number, parameter)) => return (place.saturating_add(2 + parameters.len()), number, parameter),"),
    entry("place-moves-by-22", "write.rs", "return (place, 22, 0);", "return (buffer.len(), 22, 0);"),
    entry("place-0-when-refused", "write.rs",
        "Err((number, parameter)) => return (place, number, parameter),",
        "Err((number, parameter)) => return (0, number, parameter),"),
    entry("length-for-the-place", "write.rs", "(place + bytes.len(), 0, 0)", "(bytes.len(), 0, 0)"),
    entry("place-stays", "write.rs", "(place + bytes.len(), 0, 0)", "(place, 0, 0)"),
    entry("22-where-it-just-fits", "write.rs", "if bytes.len() > space.len() {", "if bytes.len() >= space.len() {"),
    entry("22-below-thirteen-bytes", "write.rs", "if bytes.len() > space.len() {", "if 13 > space.len() {"),
    entry("written-as-far-as-it-goes", "write.rs",
        "return (place, 22, 0);",
        "let most = space.len();
        space.copy_from_slice(&bytes[..most]);
        return (place, 22, 0);"),
    entry("place-past-the-buffer-held", "write.rs",
        "buffer.get_mut(place..).unwrap_or(&mut []);",
        "{
        let least = place.min(buffer.len().saturating_sub(bytes.len()));
        let from = if place > buffer.len() { least } else { place };
        &mut buffer[from..]
    };"),
    entry("sum-of-place-wraps", "write.rs",
        "buffer.get_mut(place..).unwrap_or(&mut []);",
        "if place.wrapping_add(bytes.len()) <= buffer.len() {
        &mut buffer[place.min(place.wrapping_add(bytes.len()))..]
    } else {
        &mut []
    };"),
    entry("refused-after-writing", "write.rs",
        "Err((number, parameter)) => return (place, number, parameter),",
        "Err((number, parameter)) => {
            if let Some(space) = buffer.get_mut(place..).filter(|space| number == 11 && space.len() > 1) {
                (space[0], space[1]) = (ESC, second);
            }
            return (place, number, parameter);
        }"),
];
