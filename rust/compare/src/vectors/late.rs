//! Document 02, P9: the late wrap.

use super::scenes::SCENES;
use super::Cases;
use crate::generate::Kind;
use reference::text::REPLAY_ROOM;

impl Cases {
    /// An opening by this rule, then these messages.
    fn by_rule(&mut self, rule: usize, name: impl Into<String>, messages: &[&[u8]]) {
        let opening = (Kind::Opening(rule), REPLAY_ROOM, &[][..]);
        let messages = messages.iter().map(|&bytes| (Kind::Message, REPLAY_ROOM, bytes));
        let calls: Vec<_> = std::iter::once(opening).chain(messages).collect();
        self.add_calls(name, &calls);
    }
}

/// A full line, after which the cursor waits.
const FULL: &[u8] = &[65; 80];
/// The last cell of the screen.
const LAST: &[u8] = &[27, 61, 55, 111, 65];

pub fn cases(cases: &mut Cases) {
    examples(cases);
    kept(cases);
    scenes(cases);
}

/// The request's own examples, by number; of the tenth, settings that are not
/// sound, no message can be made.
fn examples(cases: &mut Cases) {
    cases.by_rule(2, "late-1-waits", &[FULL]);
    cases.by_rule(2, "late-1-steps", &[FULL, &[66]]);
    cases.by_rule(2, "late-2-code-13", &[FULL, &[13, 66]]);
    cases.by_rule(2, "late-3-code-8", &[FULL, &[8, 66]]);
    cases.by_rule(2, "late-4-code-10", &[FULL, &[10, 66]]);
    cases.by_rule(2, "late-5-erased", &[LAST, &[27, 84]]);
    cases.by_rule(2, "late-5-no-lift-until-printed", &[LAST, &[27, 84], &[66]]);
    cases.by_rule(2, "late-6-code-10-lifts", &[LAST, &[10]]);
    cases.by_rule(2, "late-7-209-and-back", &[FULL, &[27, 209, 1, 27, 209, 0, 66]]);
    cases.by_rule(2, "late-8-one-column", &[&[27, 208, 2, 8, 1, 35, 65, 66]]);
    for rule in [0, 3, 255, 256, 257, 258, (1 << 32) + 2, usize::MAX] {
        cases.by_rule(rule, format!("late-9-rule-{rule}"), &[FULL, &[66]]);
    }
    // a refused opening after one by rule 2 gives rule 1, and leaves the stores
    let open = |rule| (Kind::Opening(rule), REPLAY_ROOM, &[][..]);
    let full = (Kind::Message, REPLAY_ROOM, FULL);
    cases.add_calls("late-9-refused-after-rule-2", &[open(2), full, open(3), full]);
    cases.add_calls("late-rule-2-after-rule-1", &[full, open(2), full]);
    cases.add_calls("late-rule-1-after-rule-2", &[open(2), full, open(1), full]);
    let piece = |bytes| (Kind::Piece, REPLAY_ROOM, bytes);
    let cut =
        [open(2), piece(FULL), piece(&[27]), piece(&[37]), piece(&[66]), (Kind::Closing, REPLAY_ROOM, &[])];
    cases.add_calls("late-37-in-pieces", &cut);
}

/// What stands between the byte in the last column and the next one.
#[rustfmt::skip]
const BETWEEN: [(&str, &[u8]); 32] = [
    ("nothing", &[]), ("8", &[8]), ("10", &[10]), ("12", &[12]), ("13", &[13]), ("other-codes", &[0, 7, 9, 31]),
    ("42", &[27, 42]), ("50", &[27, 50]), ("61-home", &[27, 61, 32, 32]), ("61-refused", &[27, 61, 31, 32]),
    ("67", &[27, 67, 78]), ("80", &[27, 80]), ("84", &[27, 84]), ("89", &[27, 89]), ("123", &[27, 123]),
    ("144", &[27, 144, 0, 8]), ("145", &[27, 145, 0, 8]), ("145-1-2", &[27, 145, 1, 2]), ("148", &[27, 148, 3]),
    ("149", &[27, 149, 1]), ("150", &[27, 150]), ("151", &[27, 151]), ("208-mode-2", &[27, 208, 2, 8, 2, 35]),
    ("208-refused", &[27, 208, 0, 7, 8]), ("209-0", &[27, 209, 0]), ("209-1", &[27, 209, 1]),
    ("210", &[27, 210, 1, 80, 42, 27, 210, 2, 1, 43]), ("211", &[27, 211, 0]), ("212", &[27, 212]),
    ("213", &[27, 213]), ("215", &[27, 215]), ("27-27", &[27, 27]),
];

fn kept(cases: &mut Cases) {
    for (name, bytes) in BETWEEN {
        cases.by_rule(2, format!("late-between-{name}"), &[FULL, bytes, b"B"]);
        cases.by_rule(2, format!("late-between-at-the-end-{name}"), &[LAST, bytes, b"B"]);
    }
}

/// Every kind of screen: a byte in the last column of a line and of the last.
fn scenes(cases: &mut Cases) {
    for scene in &SCENES {
        let screen = usize::from(scene.selected);
        let (lines, columns) = (scene.lines[screen], scene.columns[screen]);
        let [first, second] = scene.messages();
        let mut add = |name: &str, line: u8, action: &[u8]| {
            let place = [27, 61, 31 + line, 31 + columns, 27, 210, 3, 3, 42, 88];
            let messages: [&[u8]; 5] = [&first, &second, &place, action, b"z\x1bP"];
            cases.by_rule(2, format!("late-{}-{name}", scene.name), &messages);
        };
        for (name, line) in [("line-3", 3), ("last-line", lines)] {
            add(&format!("{name}-print"), line, b"YZ");
            add(&format!("{name}-37"), line, &[27, 37, 89, 27, 37, 90]);
            add(&format!("{name}-a-line"), line, &[120; 81]);
            add(&format!("{name}-8"), line, &[8]);
            add(&format!("{name}-10"), line, &[10]);
            add(&format!("{name}-13"), line, &[13]);
            add(&format!("{name}-84"), line, &[27, 84]);
            add(&format!("{name}-61"), line, &[27, 61, 31 + line, 31 + columns]);
            add(
                &format!("{name}-other-screen"),
                line,
                &[27, 209, 1 - scene.selected, 65, 27, 209, scene.selected],
            );
            add(&format!("{name}-other-screen-42"), line, &[27, 209, 1 - scene.selected, 27, 42]);
            add(&format!("{name}-not-tracked"), line, &[27, 149, 1, 27, 213, 89]);
            add(&format!("{name}-key-line"), line, &[27, 211, 0, 89]);
            add(&format!("{name}-208"), line, &[27, 208, 1, 16, 89]);
        }
    }
}
