//! Document 02, P8: what a copy could let be seen in secret mode.

use super::{entry, Break};

#[rustfmt::skip]
pub const BREAKS: &[Break] = &[
    // on the glass and on paper
    entry("one-place-seen-in-secret", "picture.rs",
        "if settings.secret == 1 {",
        "if settings.secret == 1 && at != 79 {"),
    entry("copy-of-what-secret-hides", "picture.rs",
        "room[at] = picture(settings, cells, layer, row, column).max(BLANK);",
        "room[at] = picture(&Settings { secret: 0, ..*settings }, cells, layer, row, column).max(BLANK);"),
    entry("mode-1-ends-secret", "apply.rs",
        "settings.step = 1;",
        "settings.step = 1;
        settings.secret &= u8::from(settings.mode != 1);"),
    // by which places of a stale screen a short message paints
    entry("blanks-spared-by-a-short-message", "short.rs",
        "ticked[at] = true;",
        "ticked[at] |= !matches!(item, Item::Printed(32));"),
    // in a setting
    entry("tracking-by-a-cell", "apply.rs",
        "149 => settings.tracking = 1 - p[0],",
        "149 => settings.tracking = (1 - p[0]) | u8::from(self.cells[0] > 127),"),
    entry("blank-runs-on-nowhere", "apply.rs",
        "} else {
            self.next_line();
        }",
        "} else {
            self.next_line();
            let above = usize::from(self.here().line) - 1;
            self.set_runs_on(above, byte != BLANK);
        }"),
    // in an answer
    entry("37-judged-by-its-code", "read.rs",
        "67 => named(&[CHARSETS.contains(&parameters[0])]),",
        "37 => named(&[parameters[0] >= 32]),
        67 => named(&[CHARSETS.contains(&parameters[0])]),"),
    entry("key-text-answered-by-its-codes", "calls.rs",
        "(after, Answer::default())",
        "(after, Answer { taken: u32::from(text[0] == 65), ..Answer::default() })"),
    entry("message-counted-by-the-layer", "calls.rs",
        "answer.taken = bytes.len() as u32;",
        "answer.taken = bytes.len() as u32 - u32::from(standing.layer[0] != 0 && !bytes.is_empty());"),
];
