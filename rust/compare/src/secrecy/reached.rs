//! Counts what the runs reached: calls, numbers, settings, bytes exchanged, what was seen, and
//! what differed unseen.

use super::exchange::{Exchanged, Role};
use super::Seen;
use crate::classes::Classes;
use crate::generate::{Call, Kind};
use crate::play::Side;
use reference::settings::BLANK;
use reference::Settings;

#[rustfmt::skip]
const CLASSES: &[&str] = &[
    "message", "short message", "piece", "closing", "pack", "key text",
    "refused by 1", "refused by 2", "refused by 3", "refused by 15", "refused by 16", "refused by 17", "refused by 19", "refused by 20", "refused by 21",
    "mode 0", "mode 1", "mode 2", "mode 3", "rule 1", "rule 2", "key line displayed",
    "a byte exchanged", "a byte exchanged in a pack", "a 37's parameter exchanged", "a 37's parameter exchanged behind a cut", "a text's code exchanged",
    "a refusal", "a refusal behind a pack's first message", "a copy", "a copy of dots", "a stale place at the start", "a stale place behind a call",
    "cells differ", "layers differ", "texts differ",
];

/// Classes of a run, all at 0.
pub fn classes() -> Classes {
    Classes::new(CLASSES)
}

pub fn count_start(classes: &mut Classes, [first, _]: &[Side; 2]) {
    classes.count_if(stale(&first.stores[2]), "a stale place at the start");
}

pub fn count(classes: &mut Classes, call: &Call, settings: &Settings, seen: &Seen, bytes: &Exchanged) {
    classes.count(outcome(call.kind, seen.answer.number));
    classes.count(["mode 0", "mode 1", "mode 2", "mode 3"][usize::from(settings.mode)]);
    classes.count(["rule 1", "rule 2"][usize::from(settings.rule - 1)]);
    classes.count_if(settings.display == 0, "key line displayed");
    let packed = call.kind == Kind::Pack;
    classes.count_if(bytes.any(Role::Printed), "a byte exchanged");
    classes.count_if(packed && bytes.any(Role::Printed), "a byte exchanged in a pack");
    classes.count_if(bytes.any(Role::Of37), "a 37's parameter exchanged");
    classes.count_if(bytes.first(Role::Of37), "a 37's parameter exchanged behind a cut");
    classes.count_if(bytes.any(Role::Text), "a text's code exchanged");
    classes.count_if(seen.answer.first != 0, "a refusal");
    classes.count_if(seen.record > 1, "a refusal behind a pack's first message");
    classes.count_if(seen.answer.printed > 0, "a copy");
    classes.count_if(seen.answer.printed > 0 && seen.settings.mode == 3, "a copy of dots");
    classes.count_if(stale(&seen.stores[2]), "a stale place behind a call");
}

/// A call that is served by its kind, another by its number.
fn outcome(kind: Kind, number: u8) -> &'static str {
    match (number, kind) {
        (0, Kind::Message) => "message",
        (0, Kind::Short) => "short message",
        (0, Kind::Piece) => "piece",
        (0, Kind::Closing) => "closing",
        (0, Kind::Pack) => "pack",
        (0, Kind::KeyText(_)) => "key text",
        (1, _) => "refused by 1",
        (2, _) => "refused by 2",
        (3, _) => "refused by 3",
        (15, _) => "refused by 15",
        (16, _) => "refused by 16",
        (17, _) => "refused by 17",
        (19, _) => "refused by 19",
        (20, _) => "refused by 20",
        (21, _) => "refused by 21",
        _ => unreachable!("{kind:?} is refused by {number}"),
    }
}

/// In secret mode the picture is blank everywhere.
fn stale(shown: &[u8]) -> bool {
    shown.iter().any(|&code| code != BLANK)
}

/// What differs behind a list, so that there was something to be seen.
pub fn count_end(classes: &mut Classes, [first, second]: &[Side; 2]) {
    classes.count_if(first.stores[0] != second.stores[0], "cells differ");
    classes.count_if(first.stores[1] != second.stores[1], "layers differ");
    classes.count_if(first.settings.texts != second.settings.texts, "texts differ");
}
