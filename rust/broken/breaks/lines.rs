//! Document 02, P5: what a copy could get wrong of lines that run on.

use super::{entry, Break};

#[rustfmt::skip]
pub const BREAKS: &[Break] = &[
    // setting
    entry("37-sets-no-mark", "apply.rs",
        "self.print(p[0]);",
        "let marks = self.settings.marks;
                self.print(p[0]);
                self.settings.marks = marks;"),
    entry("mark-on-the-line-reached", "apply.rs",
        "self.set_runs_on(left, true);
        self.here_mut().column = 1;
        self.line_down();",
        "self.here_mut().column = 1;
        self.line_down();
        if usize::from(self.here().line) < self.lines() {
            self.set_runs_on(self.here().line.into(), true);
        }"),
    entry("a-lift-by-printing-leaves-no-mark", "apply.rs",
        "self.set_runs_on(left, true);
        self.here_mut().column = 1;
        self.line_down();",
        "self.set_runs_on(left, left < self.lines());
        self.here_mut().column = 1;
        self.line_down();"),
    entry("mark-set-by-a-code-10-too", "apply.rs",
        "            10 => {
                self.line_down();",
        "            10 => {
                let here = self.here();
                if usize::from(here.column) == self.columns() {
                    self.set_runs_on(here.line.into(), true);
                }
                self.line_down();"),
    entry("mark-taken-away-by-printing", "apply.rs",
        "self.here_mut().column = here.column + 1;",
        "self.here_mut().column = here.column + 1;
            self.set_runs_on(here.line.into(), false);"),
    entry("mark-only-where-the-line-is-full", "apply.rs",
        "self.set_runs_on(left, true);",
        "let full = (1..=self.columns()).all(|column| self.cells[self.cell(left, column)] != BLANK);
        self.set_runs_on(left, full);"),
    entry("marks-of-screen-1-alone", "apply.rs",
        "self.settings.marks[mark_of(self.screen(), line)] = u8::from(runs_on);",
        "self.settings.marks[mark_of(0, line)] = u8::from(runs_on);"),
    // lifts
    entry("lift-treated-as-144", "apply.rs",
        "self.move_lines_up(1, self.lines());",
        "self.move_lines_up(1, self.lines());
        self.set_runs_on(self.lines() - 1, false);"),
    entry("lift-leaves-marks", "apply.rs",
        "self.move_lines_up(1, self.lines());",
        "let marks = self.settings.marks;
        self.move_lines_up(1, self.lines());
        self.settings.marks = marks;
        self.set_runs_on(self.lines(), false);"),
    entry("lift-clears-marks", "apply.rs",
        "self.move_lines_up(1, self.lines());",
        "let last = self.runs_on(self.lines());
        self.move_lines_up(1, self.lines());
        self.settings.marks = [0; 96];
        self.set_runs_on(self.lines() - 1, last);"),
    entry("lift-carries-the-other-screens-marks", "apply.rs",
        "self.move_lines_up(1, self.lines());",
        "self.move_lines_up(1, self.lines());
        let other = 48 - 48 * self.screen();
        self.settings.marks.copy_within(other + 1..other + 48, other);"),
    entry("first-lines-mark-comes-round", "apply.rs",
        "self.move_lines_up(1, self.lines());",
        "let first = self.runs_on(1);
        self.move_lines_up(1, self.lines());
        if first {
            self.set_runs_on(self.lines() - 1, true);
        }"),
    // 84 and 89
    entry("84-stops-at-one-line", "apply.rs",
        "if second == 89 { self.lines() } else { self.first_unmarked(line) }",
        "if second == 89 { self.lines() } else { line }"),
    entry("84-stops-at-two-lines", "apply.rs",
        "if second == 89 { self.lines() } else { self.first_unmarked(line) }",
        "if second == 89 { self.lines() } else { self.first_unmarked(line).min(line + 1) }"),
    entry("84-a-line-short", "apply.rs",
        "if second == 89 { self.lines() } else { self.first_unmarked(line) }",
        "if second == 89 { self.lines() } else { line.max(self.first_unmarked(line) - 1) }"),
    entry("84-from-the-start-of-the-logical-line", "apply.rs",
        "let last = if second == 89",
        "for above in (1..line).rev().take_while(|&above| second == 84 && self.runs_on(above)).collect::<Vec<_>>() {
            self.blank_line(above);
        }
        let last = if second == 89"),
    entry("84-by-the-cells", "apply.rs",
        "while self.runs_on(first) {",
        "while first < self.lines() && self.cells[self.cell(first, self.columns())] != BLANK {"),
    entry("84-keeps-the-marks", "apply.rs",
        "self.blank_rest(line, self.here().column.into());
        for below in line + 1..=last {
            self.blank_line(below);
        }",
        "let marks = self.settings.marks;
        self.blank_rest(line, self.here().column.into());
        for below in line + 1..=last {
            self.blank_line(below);
        }
        if second == 84 {
            self.settings.marks = marks;
        }"),
    entry("84-clears-the-cursors-mark-alone", "apply.rs",
        "self.blank_rest(line, self.here().column.into());
        for below in line + 1..=last {
            self.blank_line(below);
        }",
        "let mut marks = self.settings.marks;
        marks[mark_of(self.screen(), line)] = 0;
        self.blank_rest(line, self.here().column.into());
        for below in line + 1..=last {
            self.blank_line(below);
        }
        if second == 84 {
            self.settings.marks = marks;
        }"),
    entry("84-clears-the-line-above", "apply.rs",
        "self.blank_rest(line, self.here().column.into());",
        "self.blank_rest(line, self.here().column.into());
        if second == 84 && line > 1 {
            self.set_runs_on(line - 1, false);
        }"),
    entry("89-clears-the-line-above", "apply.rs",
        "self.blank_rest(line, self.here().column.into());",
        "self.blank_rest(line, self.here().column.into());
        if second == 89 && line > 1 {
            self.set_runs_on(line - 1, false);
        }"),
    entry("89-keeps-the-cursors-mark", "apply.rs",
        "self.blank_rest(line, self.here().column.into());",
        "let runs_on = self.runs_on(line);
        self.blank_rest(line, self.here().column.into());
        self.set_runs_on(line, runs_on && second == 89);"),
    entry("89-clears-the-logical-lines-marks-alone", "apply.rs",
        "self.blank_rest(line, self.here().column.into());
        for below in line + 1..=last {
            self.blank_line(below);
        }",
        "let mut marks = self.settings.marks;
        for below in line..self.first_unmarked(line) {
            marks[mark_of(self.screen(), below)] = 0;
        }
        self.blank_rest(line, self.here().column.into());
        for below in line + 1..=last {
            self.blank_line(below);
        }
        self.settings.marks = marks;"),
    // 42 and 208
    entry("42-clears-both-screens-marks", "apply.rs",
        "*self.here_mut() = HOME;",
        "*self.here_mut() = HOME;
        self.settings.marks = [0; 96];"),
    entry("42-keeps-the-marks", "apply.rs",
        "for line in 1..=self.lines() {
            self.blank_line(line);
        }",
        "let marks = self.settings.marks;
        for line in 1..=self.lines() {
            self.blank_line(line);
        }
        self.settings.marks = marks;"),
    entry("code-12-keeps-the-marks", "apply.rs",
        "12 => self.clear_screen(),",
        "12 => {
                let marks = self.settings.marks;
                self.clear_screen();
                self.settings.marks = marks;
            }"),
    entry("208-keeps-the-marks", "apply.rs", "settings.marks = [0; 2 * MOST_LINES];", ""),
    entry("208-clears-screen-1s-marks", "apply.rs",
        "settings.marks = [0; 2 * MOST_LINES];",
        "settings.marks[..48].fill(0);"),
    entry("209-clears-marks", "apply.rs",
        "self.settings.selected = p[0];",
        "self.settings.selected = p[0];
                self.settings.marks = [0; 96];"),
    // 144 and 145
    entry("144-leaves-marks", "apply.rs",
        "self.move_lines_up(a + 1, a + m);",
        "let marks = self.settings.marks;
            self.move_lines_up(a + 1, a + m);
            self.settings.marks = marks;"),
    entry("145-leaves-marks", "apply.rs",
        "self.move_lines_down(a + 1, a + m);",
        "let marks = self.settings.marks;
            self.move_lines_down(a + 1, a + m);
            self.settings.marks = marks;"),
    entry("scrolling-clears-marks", "apply.rs",
        "if a > 0 {
            self.set_runs_on(a, false);
        }",
        "self.settings.marks = [0; 96];"),
    entry("scrolling-keeps-the-line-above", "apply.rs",
        "if a > 0 {
            self.set_runs_on(a, false);
        }",
        ""),
    entry("scrolling-keeps-the-line-above-a-line-alone", "apply.rs", "if a > 0 {", "if a > 0 && m > 1 {"),
    entry("scrolling-clears-the-last-line-alone", "apply.rs",
        "let last_two = if m > 1 { a + m - 1 } else { a + m };",
        "let last_two = a + m;"),
    entry("scrolling-of-two-lines-keeps-the-first", "apply.rs",
        "let last_two = if m > 1 { a + m - 1 } else { a + m };",
        "let last_two = if m > 2 { a + m - 1 } else { a + m };"),
    entry("scrolling-clears-the-last-but-one-alone", "apply.rs",
        "for line in last_two..=a + m {",
        "for line in last_two..a + m {"),
    entry("scrolling-clears-the-line-below", "apply.rs",
        "for line in last_two..=a + m {",
        "for line in last_two..=(a + m + 1).min(48) {"),
    entry("144-alone-unmarks", "apply.rs",
        "for line in last_two..=a + m {",
        "for line in (last_two..=a + m).filter(|_| second == 144) {"),
    entry("145s-blank-line-keeps-a-mark", "apply.rs",
        "self.move_lines_down(a + 1, a + m);",
        "let first = self.runs_on(a + 1);
            self.move_lines_down(a + 1, a + m);
            self.set_runs_on(a + 1, first);"),
    // soundness
    entry("mark-on-the-last-line-taken", "sound.rs", "1 => line < s.lines(screen),", "1 => line <= s.lines(screen),"),
    entry("mark-past-the-lines-taken", "sound.rs", "1 => line < s.lines(screen),", "1 => line != s.lines(screen),"),
    entry("mark-of-2-taken", "sound.rs",
        "1 => line < s.lines(screen),
        _ => false,",
        "_ => line < s.lines(screen),"),
    entry("marks-of-screen-2-not-judged", "sound.rs", "&& marks_sound(settings, 1)", ""),
];
