//! Document 01: what a copy could get wrong of its rules.

use super::{entry, Break};

#[rustfmt::skip]
pub const BREAKS: &[Break] = &[
    entry("window-below-the-last-line-after-213", "apply.rs",
        "213 => self.set_top(greatest),",
        "213 => self.set_top(greatest + 1),"),
    entry("scrolled-region-a-line-short", "apply.rs",
        "self.move_lines_up(a + 1, a + m);",
        "self.move_lines_up(a + 1, (a + m - 1).max(a + 1));"),
    entry("layer-painted-over-secret", "picture.rs",
        "if settings.secret == 1 {",
        "if settings.secret == 1 && layer[at] == 0 {"),
    entry("refused-208-blanks-the-screen", "calls.rs",
        "let (item, length) = read(rest, &standing.settings, standing.room());",
        "let (item, length) = read(rest, &standing.settings, standing.room());
        if matches!(item, Item::Refusal { .. }) && rest.get(1) == Some(&208) {
            standing.cells.fill(BLANK);
        }"),
    entry("escape-in-a-parameter-starts-a-sequence", "read.rs",
        "let parameters = &rest[2..length];",
        "let parameters = &rest[2..length];
        if let Some(at) = parameters.iter().position(|&byte| byte == ESC) {
            return (refusal(12), 2 + at);
        }"),
    entry("209-at-the-end-refused-by-12", "read.rs",
        "if second == 209 && rest.len() == 2 {",
        "if false {"),
    entry("209-to-the-same-screen-keeps-the-layer", "apply.rs",
        "self.settings.selected = p[0];
                self.empty_layer();",
        "if self.settings.selected != p[0] {
                    self.empty_layer();
                }
                self.settings.selected = p[0];"),
    entry("tracking-after-61-by-the-least-amount", "apply.rs",
        "self.track(Tracking::Centre);",
        "self.track(Tracking::Least);"),
    entry("lift-keeps-the-layer", "apply.rs",
        "self.move_lines_up(1, self.lines());
        self.empty_layer();",
        "self.move_lines_up(1, self.lines());"),
    entry("byte-after-a-copy-altered", "picture.rs",
        "debug_assert_eq!(at, COPY);",
        "if at < room.len() {
            room[at] ^= 1;
        }"),
    entry("13-judged-before-11", "read.rs",
        "return Item::Refusal { number: 11, parameter };",
        "return if room < copy_size(settings) { refusal(13) } else { Item::Refusal { number: 11, parameter } };"),
    entry("offset-of-the-last-refusal", "calls.rs",
        "if answer.first == 0 {",
        "answer.offset = offset as u32;
            if answer.first == 0 {"),
    entry("215-half-the-height-off-by-one", "apply.rs",
        "let half = self.settings.height() / 2;",
        "let half = self.settings.height() / 2 - 1;"),
    entry("right-half-of-mode-1-a-line-early", "picture.rs",
        "line: top(selected) + rows - 1 + row,",
        "line: top(selected) + rows - 2 + row,"),
    entry("89-stops-at-the-end-of-the-line", "apply.rs",
        "if second == 89 { self.lines() } else { self.first_unmarked(line) }",
        "self.first_unmarked(line)"),
    entry("printing-under-secret-keeps-the-mark", "apply.rs",
        "if let Some(shown_at) = cursor_place(&self.settings) {",
        "if let Some(shown_at) = cursor_place(&self.settings).filter(|_| self.settings.secret == 0) {"),
    entry("emptied-place-keeps-its-code", "apply.rs",
        "self.layer[MARKS + shown_at] = 0;",
        ""),
    entry("right-half-of-mode-1-keeps-its-marks", "picture.rs",
        "(1, _) if row > rows => Some(place(row - rows, column + 41)),",
        "(1, _) if row > rows => None,"),
    entry("unmoved-top-empties-the-layer", "apply.rs",
        "if usize::from(self.here().top) != top {",
        "{"),
    entry("208-keeps-the-step", "apply.rs",
        "settings.step = 1;",
        ""),
    entry("208-in-mode-0-resets-the-boundary", "apply.rs",
        "2 => settings.boundary = p[3],",
        "2 => settings.boundary = p[3],
            0 => settings.boundary = BLANK,"),
    entry("11-judged-before-12", "read.rs",
        "return (refusal(12), rest.len());",
        "let bad = second == 61 && rest.get(2).is_some_and(|&byte| byte < 32);
        return (if bad { Item::Refusal { number: 11, parameter: 1 } } else { refusal(12) }, rest.len());"),
    entry("148-takes-one-beyond-the-height", "read.rs",
        "148 => named(&[(1..=settings.height()).contains(&number(0))]),",
        "148 => named(&[(1..=settings.height() + 1).contains(&number(0))]),"),
    entry("unsound-columns-of-mode-0-taken", "sound.rs",
        "columns == (80, 80)",
        "columns.0 == 80"),
    entry("top-just-beyond-taken", "sound.rs",
        "(1..=s.greatest_top(screen)).contains",
        "(1..=s.greatest_top(screen) + 1).contains"),
    entry("3-judged-before-2", "calls.rs",
        "return Some(2);",
        "return Some(if sound(settings) { 2 } else { 3 });"),
    entry("message-of-4096-refused", "calls.rs",
        "if message.len() > LONGEST_MESSAGE {",
        "if message.len() >= LONGEST_MESSAGE {"),
    entry("42-blanks-both-screens", "apply.rs",
        "for line in 1..=self.lines() {
            self.blank_line(line);
        }",
        "self.cells.fill(BLANK);"),
    entry("copy-keeps-codes-below-32", "picture.rs",
        "picture(settings, cells, layer, row, column).max(BLANK);",
        "picture(settings, cells, layer, row, column);"),
    entry("second-copy-judged-by-the-whole-buffer", "apply.rs",
        "self.printer.len() - self.printed",
        "self.printer.len()"),
    entry("shift-arrows-in-the-place-of-ctrl-arrows", "apply.rs",
        "244 => keys.arrows[4..8]",
        "244 => keys.arrows[8..12]"),
    entry("no-tracking-after-13", "apply.rs",
        "self.here_mut().column = 1;
                self.track(Tracking::Least);",
        "self.here_mut().column = 1;"),
    entry("tracking-after-209", "apply.rs",
        "self.settings.selected = p[0];
                self.empty_layer();",
        "self.settings.selected = p[0];
                self.empty_layer();
                self.track(Tracking::Least);"),
    entry("screen-2-of-mode-2-by-the-selected-top", "picture.rs",
        "line: top(1) + row - 1,",
        "line: top(selected) + row - 1,"),
    entry("empty-message-not-painted", "calls.rs",
        "answer.taken = bytes.len() as u32;
    paint(&standing.settings, standing.cells, standing.layer, shown);",
        "answer.taken = bytes.len() as u32;
        if !bytes.is_empty() {
            paint(&standing.settings, standing.cells, standing.layer, shown);
        }"),
];
