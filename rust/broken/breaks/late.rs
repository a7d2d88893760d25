//! Document 02, P9: what a copy could get wrong of the late wrap. To look where
//! the window stands between the step and the byte is none of them: a window that
//! moves empties the layer anyway.

use super::{entry, Break};

#[rustfmt::skip]
pub const BREAKS: &[Break] = &[
    // setting the flag, and the step
    entry("rule-2-steps-at-once", "apply.rs", "} else if self.settings.rule == 2 {", "} else if false {"),
    entry("rule-1-waits", "apply.rs", "} else if self.settings.rule == 2 {", "} else if true {"),
    entry("rule-2-waits-but-in-the-last-line", "apply.rs",
        "} else if self.settings.rule == 2 {",
        "} else if self.settings.rule == 2 && usize::from(here.line) < self.lines() {"),
    entry("late-step-left-out", "apply.rs",
        "self.here_mut().waiting = 0;
            self.next_line();",
        "self.here_mut().waiting = 0;"),
    entry("late-step-keeps-the-flag", "apply.rs",
        "self.here_mut().waiting = 0;
            self.next_line();",
        "self.next_line();"),
    entry("late-step-sets-no-mark", "apply.rs",
        "self.set_runs_on(left, true);",
        "self.set_runs_on(left, self.settings.rule == 1 || self.runs_on(left));"),
    entry("mark-set-while-the-cursor-waits", "apply.rs",
        "self.here_mut().waiting = 1;",
        "self.here_mut().waiting = 1;
            if usize::from(here.line) < self.lines() {
                self.set_runs_on(here.line.into(), true);
            }"),
    entry("cursor-beyond-the-last-column", "apply.rs",
        "self.here_mut().waiting = 1;",
        "self.here_mut().waiting = 1;
            self.here_mut().column += 1;"),
    entry("late-step-empties-the-old-place-too", "apply.rs",
        "if self.here().waiting == 1 {",
        "if let Some(shown_at) = cursor_place(&self.settings).filter(|_| self.here().waiting == 1) {
            self.layer[shown_at] = 0;
            self.layer[MARKS + shown_at] = 0;
        }
        if self.here().waiting == 1 {"),
    entry("37-does-not-step", "apply.rs",
        "self.print(p[0]);",
        "self.here_mut().waiting = 0;
                self.print(p[0]);"),
    entry("flag-of-screen-1-for-both", "apply.rs",
        "if self.here().waiting == 1 {",
        "if self.settings.places[0].waiting == 1 {"),
    entry("flag-forgotten-by-a-message", "calls.rs",
        "let mut answer = serve(&mut standing, bytes);",
        "standing.settings.places[0].waiting = 0;
    standing.settings.places[1].waiting = 0;
    let mut answer = serve(&mut standing, bytes);"),
    entry("flag-forgotten-by-a-piece", "calls.rs",
        "let mut line = Line::of(&settings);",
        "let mut line = Line::of(&settings);
    standing.settings.places[0].waiting = 0;
    standing.settings.places[1].waiting = 0;"),
    entry("flag-forgotten-by-a-closing", "calls.rs",
        "if let Some((item, offset)) = Line::of(&settings).close() {",
        "standing.settings.places[0].waiting = 0;
    if let Some((item, offset)) = Line::of(&settings).close() {"),
    // what clears it
    entry("code-8-keeps-the-flag", "apply.rs",
        "if matches!(code, 8 | 10 | 12 | 13) {",
        "if matches!(code, 10 | 12 | 13) || code == 8 && self.columns() > 1 {"),
    entry("code-8-only-clears-the-flag", "apply.rs",
        "self.here_mut().waiting = 0;
        }
        match code {",
        "let waiting = self.here().waiting;
            self.here_mut().waiting = 0;
            if code == 8 && waiting == 1 {
                return self.track(Tracking::Least);
            }
        }
        match code {"),
    entry("code-10-keeps-the-flag", "apply.rs", "8 | 10 | 12 | 13", "8 | 12 | 13"),
    entry("code-10-keeps-the-flag-where-it-lifts", "apply.rs",
        "if matches!(code, 8 | 10 | 12 | 13) {",
        "let lifts = code == 10 && usize::from(self.here().line) == self.lines();
        if matches!(code, 8 | 10 | 12 | 13) && !lifts {"),
    entry("code-10-steps-from-the-last-column", "apply.rs",
        "self.here_mut().waiting = 0;
        }
        match code {",
        "let waiting = self.here().waiting;
            self.here_mut().waiting = 0;
            if code == 10 && waiting == 1 {
                self.here_mut().column = 1;
            }
        }
        match code {"),
    entry("code-10-marks-a-waiting-line", "apply.rs",
        "self.here_mut().waiting = 0;
        }
        match code {",
        "let here = self.here();
            self.here_mut().waiting = 0;
            if code == 10 && here.waiting == 1 {
                self.set_runs_on(here.line.into(), true);
            }
        }
        match code {"),
    entry("code-13-keeps-the-flag", "apply.rs", "8 | 10 | 12 | 13", "8 | 10 | 12"),
    entry("code-13-steps", "apply.rs",
        "self.here_mut().waiting = 0;
        }
        match code {",
        "let waiting = self.here().waiting;
            self.here_mut().waiting = 0;
            if code == 13 && waiting == 1 {
                self.line_down();
            }
        }
        match code {"),
    entry("every-code-clears-the-flag", "apply.rs", "if matches!(code, 8 | 10 | 12 | 13) {", "{"),
    entry("61-keeps-the-flag", "apply.rs",
        "self.here_mut().waiting = 0;
                self.track(Tracking::Centre);",
        "self.track(Tracking::Centre);"),
    entry("61-onto-the-last-column-keeps-the-flag", "apply.rs",
        "self.here_mut().waiting = 0;
                self.track(Tracking::Centre);",
        "self.here_mut().waiting &= u8::from(usize::from(p[1]) - 31 == self.columns());
                self.track(Tracking::Centre);"),
    entry("61-onto-the-last-column-sets-the-flag", "apply.rs",
        "self.here_mut().waiting = 0;
                self.track(Tracking::Centre);",
        "let last = usize::from(p[1]) - 31 == self.columns();
                self.here_mut().waiting = u8::from(last && self.settings.rule == 2);
                self.track(Tracking::Centre);"),
    entry("42-keeps-the-flag", "apply.rs",
        "*self.here_mut() = HOME;",
        "*self.here_mut() = Place { waiting: self.here().waiting, ..HOME };"),
    entry("42-clears-both-flags", "apply.rs",
        "*self.here_mut() = HOME;",
        "*self.here_mut() = HOME;
        self.settings.places[0].waiting = 0;
        self.settings.places[1].waiting = 0;"),
    entry("208-clears-the-selected-flag-alone", "apply.rs",
        "settings.places = [HOME, HOME];",
        "let other = 1 - usize::from(settings.selected);
        let waiting = settings.places[other].waiting;
        settings.places = [HOME, HOME];
        settings.places[other].waiting = waiting;"),
    entry("208-resets-the-rule", "apply.rs", "settings.step = 1;", "settings.step = 1;
        settings.rule = 1;"),
    // what keeps it
    entry("84-clears-the-flag", "apply.rs",
        "self.blank_rest(line, self.here().column.into());",
        "self.blank_rest(line, self.here().column.into());
        if second == 84 {
            self.here_mut().waiting = 0;
        }"),
    entry("89-clears-the-flag", "apply.rs",
        "self.blank_rest(line, self.here().column.into());",
        "self.blank_rest(line, self.here().column.into());
        if second == 89 {
            self.here_mut().waiting = 0;
        }"),
    entry("84-spares-the-byte-of-a-waiting-cursor", "apply.rs",
        "self.blank_rest(line, self.here().column.into());",
        "self.blank_rest(line, usize::from(self.here().column + self.here().waiting));"),
    entry("scrolling-clears-the-flag", "apply.rs",
        "let last_two = if m > 1 { a + m - 1 } else { a + m };",
        "self.here_mut().waiting = 0;
        let last_two = if m > 1 { a + m - 1 } else { a + m };"),
    entry("a-moved-window-clears-the-flag", "apply.rs",
        "self.here_mut().top = top as u8;",
        "self.here_mut().top = top as u8;
            self.here_mut().waiting = 0;"),
    entry("209-clears-the-flag-that-it-leaves", "apply.rs",
        "self.settings.selected = p[0];",
        "if self.settings.selected != p[0] {
                    self.here_mut().waiting = 0;
                }
                self.settings.selected = p[0];"),
    entry("209-clears-the-flag-that-it-comes-to", "apply.rs",
        "self.settings.selected = p[0];",
        "self.settings.selected = p[0];
                self.here_mut().waiting = 0;"),
    entry("a-changed-211-clears-the-flag", "apply.rs",
        "self.settings.display = display;",
        "self.settings.display = display;
        self.here_mut().waiting = 0;"),
    entry("a-copy-clears-the-flag", "apply.rs",
        "self.printed += copy_size(&self.settings);",
        "self.printed += copy_size(&self.settings);
        self.here_mut().waiting = 0;"),
    entry("a-refused-sequence-clears-the-flag", "apply.rs",
        "Item::Refusal { .. } => {}",
        "Item::Refusal { .. } => self.here_mut().waiting = 0,"),
    // the opening
    entry("opening-by-rule-1-always", "calls.rs", "rule: rule as u8, ..OPENING", "rule: 1, ..OPENING"),
    entry("opening-by-the-rules-low-byte", "calls.rs",
        "if rule != 1 && rule != 2 {",
        "let rule = rule & 255;
    if rule != 1 && rule != 2 {"),
    entry("opening-by-the-rules-low-four-bytes", "calls.rs",
        "if rule != 1 && rule != 2 {",
        "let rule = rule as u32 as usize;
    if rule != 1 && rule != 2 {"),
    entry("rule-0-opens-by-rule-1", "calls.rs",
        "if rule != 1 && rule != 2 {",
        "let rule = if rule == 0 { 1 } else { rule };
    if rule != 1 && rule != 2 {"),
    entry("rule-3-opens-by-rule-2", "calls.rs",
        "if rule != 1 && rule != 2 {",
        "let rule = if rule == 3 { 2 } else { rule };
    if rule != 1 && rule != 2 {"),
    entry("23-judged-before-1", "calls.rs",
        "return (OPENING, 1);",
        "return (OPENING, if rule == 1 || rule == 2 { 1 } else { 23 });"),
    entry("refused-opening-returns-its-rule", "calls.rs",
        "return (OPENING, 1);",
        "return (Settings { rule: if rule == 2 { 2 } else { 1 }, ..OPENING }, 1);"),
    entry("opening-refused-by-23-blanks", "calls.rs",
        "return (OPENING, 23);",
        "cells.fill(BLANK);
        return (OPENING, 23);"),
    // soundness
    entry("flag-by-rule-1-taken", "sound.rs", "1 => s.rule == 2 && ", "1 => "),
    entry("flag-in-any-column-taken", "sound.rs",
        "1 => s.rule == 2 && usize::from(place.column) == s.columns(screen),",
        "1 => s.rule == 2,"),
    entry("flag-by-screen-1s-columns", "sound.rs",
        "usize::from(place.column) == s.columns(screen),",
        "usize::from(place.column) == s.columns(0),"),
    entry("flag-of-2-taken", "sound.rs",
        "1 => s.rule == 2 && usize::from(place.column) == s.columns(screen),
        _ => false,",
        "_ => s.rule == 2 && usize::from(place.column) == s.columns(screen),"),
    entry("flag-asked-in-the-last-column", "sound.rs", "        0 => true,
        1 => s.rule == 2", "        0 => s.rule == 1 || usize::from(place.column) < s.columns(screen),
        1 => s.rule == 2"),
    entry("rule-0-taken", "sound.rs", "(1..=2).contains(&s.rule)", "s.rule <= 2"),
    entry("rule-3-taken", "sound.rs", "(1..=2).contains(&s.rule)", "s.rule >= 1"),
];
