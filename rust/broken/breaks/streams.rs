//! Document 02, P1: what a copy could get wrong of pieces and closings.

use super::{entry, Break};

#[rustfmt::skip]
pub const BREAKS: &[Break] = &[
    // what waits
    entry("209-at-a-pieces-end-selects-0", "calls.rs",
        "line.leave(&mut standing.settings);",
        "line.leave(&mut standing.settings);
    if line.open() == [27, 209] {
        obey(&mut standing, &mut answer, &Item::Sequence { second: 209, parameters: &[0] }, 0);
        standing.settings.waiting = [0; 12];
        standing.settings.held = 0;
    }"),
    entry("only-a-lone-escape-waits", "calls.rs",
        "line.leave(&mut standing.settings);",
        "line.leave(&mut standing.settings);
    if let Some((item, offset)) = line.close().filter(|_| line.open().len() > 1) {
        obey(&mut standing, &mut answer, &item, offset);
        standing.settings.waiting = [0; 12];
        standing.settings.held = 0;
    }"),
    entry("208-with-mode-3-waits", "stream.rs",
        "Next::Mode => Next::parameters(",
        "Next::Mode if byte == 3 => Next::parameters(1),
            Next::Mode => Next::parameters("),
    entry("escape-escape-waits", "stream.rs",
        "Next::Second if byte == 208 => Next::Mode,",
        "Next::Second if byte == 208 => Next::Mode,
            Next::Second if byte == ESC => Next::Second,"),
    entry("escape-in-a-parameter-opens-a-sequence", "stream.rs",
        "Next::Parameter { behind } => Next::parameters(behind),",
        "Next::Parameter { .. } if byte == ESC => Next::Second,
            Next::Parameter { behind } => Next::parameters(behind),"),
    entry("parameters-of-a-waiting-208-by-mode-1", "stream.rs",
        "bytes.iter().try_fold(Next::First, |next, &byte| {",
        "bytes.iter().try_fold(Next::First, |next, &byte| {
            let byte = if next == Next::Mode && byte < 3 { 1 } else { byte };"),
    entry("dirty-tail-left", "stream.rs", "settings.waiting = [0; LONGEST_WAIT];", ""),
    entry("waiting-bytes-lost-by-an-empty-piece", "calls.rs",
        "line.leave(&mut standing.settings);",
        "line.leave(&mut standing.settings);
    if piece.is_empty() {
        standing.settings.waiting = [0; 12];
        standing.settings.held = 0;
    }"),
    // offsets and counts
    entry("offset-within-the-piece", "calls.rs",
        "if let Some((item, offset)) = line.take(byte, &standing.settings, room) {",
        "if let Some((item, offset)) = line.take(byte, &standing.settings, room) {
            let offset = offset + usize::from(settings.held) - settings.count as usize;"),
    entry("offset-of-an-items-last-byte", "stream.rs",
        "Some((item, self.count - self.bytes.len()))
    }

    /// The open sequence's bytes.",
        "Some((item, self.count - 1))
    }

    /// The open sequence's bytes."),
    entry("offset-from-the-count", "calls.rs",
        "if let Some((item, offset)) = line.take(byte, &standing.settings, room) {",
        "if let Some((item, offset)) = line.take(byte, &standing.settings, room) {
            let offset = offset.max(settings.count as usize);"),
    entry("offset-of-closing-from-0", "calls.rs",
        "if let Some((item, offset)) = Line::of(&settings).close() {",
        "if let Some((item, offset)) = Line::of(&settings).close() {
        let offset = 0;"),
    entry("taken-from-items", "calls.rs",
        "line.leave(&mut standing.settings);",
        "line.leave(&mut standing.settings);
    answer.taken += u32::from(settings.held);
    answer.taken -= line.open().len() as u32;"),
    entry("closing-takes-what-waits", "calls.rs",
        "Line::of(&OPENING).leave(&mut standing.settings);",
        "Line::of(&OPENING).leave(&mut standing.settings);
    answer.taken = u32::from(settings.held);"),
    entry("count-without-what-waits", "stream.rs",
        "settings.count = self.count as u32;",
        "settings.count = (self.count - self.open().len()) as u32;"),
    entry("message-resets-the-count", "calls.rs",
        "answer.taken = bytes.len() as u32;",
        "answer.taken = bytes.len() as u32;
    standing.settings.count = 0;"),
    entry("message-adds-to-the-count", "calls.rs",
        "answer.taken = bytes.len() as u32;",
        "answer.taken = bytes.len() as u32;
    standing.settings.count += answer.taken;"),
    entry("208-resets-the-count", "apply.rs", "settings.step = 1;", "settings.step = 1;
        settings.count = 0;"),
    // closing
    entry("closing-keeps-the-bytes", "calls.rs",
        "Line::of(&OPENING).leave(&mut standing.settings);",
        "standing.settings.count = 0;"),
    entry("closing-keeps-the-count", "calls.rs",
        "Line::of(&OPENING).leave(&mut standing.settings);",
        "Line::of(&OPENING).leave(&mut standing.settings);
    standing.settings.count = settings.count;"),
    entry("closing-refuses-209-by-12", "stream.rs",
        "[_, 209] => Item::Sequence { second: 209, parameters: &[0] },",
        ""),
    entry("closing-forgets-without-12", "stream.rs", "_ => refusal(12),", "_ => return None,"),
    entry("closing-not-painted", "calls.rs",
        "Line::of(&OPENING).leave(&mut standing.settings);
    paint(&standing.settings, standing.cells, standing.layer, shown);",
        "Line::of(&OPENING).leave(&mut standing.settings);"),
    entry("empty-piece-not-painted", "calls.rs",
        "line.leave(&mut standing.settings);
    paint(&standing.settings, standing.cells, standing.layer, shown);",
        "line.leave(&mut standing.settings);
    if !piece.is_empty() {
        paint(&standing.settings, standing.cells, standing.layer, shown);
    }"),
    // refusals and soundness
    entry("15-at-the-limit", "calls.rs", "piece.len() > LONGEST_STREAM", "piece.len() >= LONGEST_STREAM"),
    entry("15-judged-before-3", "calls.rs",
        "if let Some(number) = refused(&settings, piece, cells, layer, shown, dots) {",
        "if let Some(mut number) = refused(&settings, piece, cells, layer, shown, dots) {
        if number == 3 && settings.count as usize + piece.len() > LONGEST_STREAM {
            number = 15;
        }"),
    entry("16-judged-before-3", "calls.rs",
        "if let Some(number) = refused(&settings, message, cells, layer, shown, dots) {",
        "if let Some(mut number) = refused(&settings, message, cells, layer, shown, dots) {
        if number == 3 && settings.held > 0 {
            number = 16;
        }"),
    entry("message-served-while-bytes-wait", "calls.rs", "if settings.held > 0 {", "if false {"),
    entry("long-piece-served", "calls.rs",
        "if let Some(number) = refused(&settings, piece, cells, layer, shown, dots) {",
        "if let Some(number) = refused(&settings, &[], cells, layer, shown, dots) {"),
    entry("closing-served-unsound", "calls.rs",
        "if let Some(number) = refused(&settings, &[], cells, layer, shown, dots) {",
        "if let Some(number) = refused(&settings, &[], cells, layer, shown, dots).filter(|&number| number == 1 || settings.held == 0) {"),
    entry("dirty-tail-taken", "stream.rs", "&& behind.iter().all(|&byte| byte == 0)", ""),
    entry("waiting-past-the-count-taken", "stream.rs", "|| held > count", ""),
    entry("count-past-its-limit-taken", "stream.rs", "|| count > LONGEST_STREAM", ""),
    entry("any-bytes-wait", "stream.rs", "Next::after_open(waiting).is_some() &&", ""),
];
