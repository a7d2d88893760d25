//! What the lines reached that run on.

use super::before::Before;
use crate::classes::Classes;
use reference::apply::Standing;
use reference::read::Item;
use reference::settings::{mark_of, MOST_LINES};
use reference::Settings;

#[rustfmt::skip]
const CLASSES: &[&str] = &[
    "mark set in mode 0", "mark set in mode 1", "mark set in mode 2", "mark set in mode 3", "mark set on screen 2", "mark set by 37",
    "mark set on a screen of one column", "mark set on a line that has it",
    "mark kept by printing before the last column", "mark kept by code 8", "mark kept by code 10",
    "mark kept by code 13", "mark kept by 61", "mark kept by 209",
    "code 10 in the last column", "lift by printing marks the line before the last",
    "lift by printing carries marks", "lift by code 10 carries marks", "lift loses the first line's mark",
    "lift with marks on the other screen",
    "84 on a line without a mark", "84 over two lines", "84 over more lines", "84 to the last line",
    "84 below a marked line", "84 above another run",
    "89 from a marked line", "89 with marks below", "89 below a marked line",
    "42 clears marks", "code 12 clears marks", "42 with marks on the other screen",
    "208 clears marks of screen 1", "208 clears marks of screen 2", "208 refused with marks",
    "144 carries marks", "144 clears the line above", "144 clears the line before the blank one",
    "144 on one marked line", "144 on two lines, the second marked", "144 with a mark below the region",
    "144 with a mark further above",
    "145 carries marks", "145 clears the line above", "145 clears the last line", "145 clears the last but one",
    "145 on one marked line", "145 on two lines, the first marked", "145 with a mark below the region",
    "145 with a mark further above",
];

pub struct Lines(Classes);

impl Default for Lines {
    fn default() -> Lines {
        Lines(Classes::new(CLASSES))
    }
}

/// Whether one of these lines of a screen is marked.
fn any(s: &Settings, screen: usize, lines: impl IntoIterator<Item = usize>) -> bool {
    lines.into_iter().any(|line| s.marks[mark_of(screen, line)] == 1)
}

/// Whether one of these lines of the selected screen was marked.
fn was(before: &Before, lines: impl IntoIterator<Item = usize>) -> bool {
    any(&before.settings, before.screen(), lines)
}

impl Lines {
    pub fn item(&mut self, item: &Item, before: &Before, after: &Standing) {
        match *item {
            Item::Printed(_) => self.printing(false, before),
            Item::Sequence { second: 37, .. } => self.printing(true, before),
            Item::Code(code) => self.code(code, before),
            Item::Sequence { second: second @ (144 | 145), parameters } => {
                self.scrolling(second, parameters[0].into(), parameters[1].into(), before);
            }
            Item::Sequence { second, .. } => self.sequence(second, before, after),
            Item::Refusal { .. } => {}
        }
    }

    pub fn refused(&mut self, second: u8, before: &Before) {
        let marks = [0, 1].iter().any(|&screen| any(&before.settings, screen, 1..=MOST_LINES));
        self.0.count_if(second == 208 && marks, "208 refused with marks");
    }

    fn printing(&mut self, by_37: bool, before: &Before) {
        let classes = &mut self.0;
        let line = usize::from(before.place.line);
        let marked = was(before, [line]);
        if !before.leaves_its_line() {
            return classes.count_if(marked, "mark kept by printing before the last column");
        }
        const MODES: [&str; 4] =
            ["mark set in mode 0", "mark set in mode 1", "mark set in mode 2", "mark set in mode 3"];
        classes.count(MODES[before.mode()]);
        classes.count_if(before.screen() == 1, "mark set on screen 2");
        classes.count_if(by_37, "mark set by 37");
        classes.count_if(marked, "mark set on a line that has it");
        let columns = before.settings.columns(before.screen());
        classes.count_if(columns == 1, "mark set on a screen of one column");
        if before.in_last_line() {
            classes.count("lift by printing marks the line before the last");
            self.lift("lift by printing carries marks", before);
        }
    }

    fn lift(&mut self, carries: &'static str, before: &Before) {
        let lines = before.settings.lines(before.screen());
        self.0.count_if(was(before, 2..lines), carries);
        self.0.count_if(was(before, [1]), "lift loses the first line's mark");
        let other = any(&before.settings, 1 - before.screen(), 1..=MOST_LINES);
        self.0.count_if(other, "lift with marks on the other screen");
    }

    fn code(&mut self, code: u8, before: &Before) {
        let marked = was(before, [before.place.line.into()]);
        match code {
            8 => self.0.count_if(marked, "mark kept by code 8"),
            10 => {
                self.0.count_if(before.in_last_column(), "code 10 in the last column");
                if before.in_last_line() {
                    self.lift("lift by code 10 carries marks", before);
                } else {
                    self.0.count_if(marked, "mark kept by code 10");
                }
            }
            12 => self.0.count_if(was(before, 1..=MOST_LINES), "code 12 clears marks"),
            13 => self.0.count_if(marked, "mark kept by code 13"),
            _ => {}
        }
    }

    fn sequence(&mut self, second: u8, before: &Before, after: &Standing) {
        let classes = &mut self.0;
        let given = &before.settings;
        let line = usize::from(before.place.line);
        let others = any(given, 1 - before.screen(), 1..=MOST_LINES);
        match second {
            42 => {
                classes.count_if(was(before, 1..=MOST_LINES), "42 clears marks");
                classes.count_if(others, "42 with marks on the other screen");
            }
            61 => classes.count_if(was(before, [line]), "mark kept by 61"),
            84 => self.erased_line(line, before),
            89 => {
                classes.count_if(was(before, [line]), "89 from a marked line");
                classes.count_if(was(before, line + 1..=MOST_LINES), "89 with marks below");
                classes.count_if(line > 1 && was(before, [line - 1]), "89 below a marked line");
            }
            208 => {
                classes.count_if(any(given, 0, 1..=MOST_LINES), "208 clears marks of screen 1");
                classes.count_if(any(given, 1, 1..=MOST_LINES), "208 clears marks of screen 2");
            }
            209 => classes.count_if(after.settings.marks.contains(&1), "mark kept by 209"),
            _ => {}
        }
    }

    fn erased_line(&mut self, line: usize, before: &Before) {
        let classes = &mut self.0;
        let further = (line..).take_while(|&line| was(before, [line])).count();
        match further {
            0 => classes.count("84 on a line without a mark"),
            1 => classes.count("84 over two lines"),
            _ => classes.count("84 over more lines"),
        }
        let last = before.settings.lines(before.screen());
        classes.count_if(further > 0 && line + further == last, "84 to the last line");
        classes.count_if(line > 1 && was(before, [line - 1]), "84 below a marked line");
        classes.count_if(was(before, line + further + 1..=MOST_LINES), "84 above another run");
    }

    fn scrolling(&mut self, second: u8, a: usize, m: usize, before: &Before) {
        let classes = &mut self.0;
        let up = second == 144;
        let class = |one: &'static str, other: &'static str| if up { one } else { other };
        let last = a + m;
        // those that keep a mark where they come to
        let carried = if up { a + 2..last.max(1) } else { a + 1..last.max(2) - 2 };
        classes.count_if(was(before, carried), class("144 carries marks", "145 carries marks"));
        let above = a > 0 && was(before, [a]);
        classes.count_if(above, class("144 clears the line above", "145 clears the line above"));
        let below = was(before, last + 1..=MOST_LINES);
        classes
            .count_if(below, class("144 with a mark below the region", "145 with a mark below the region"));
        let further = was(before, 1..a);
        classes.count_if(further, class("144 with a mark further above", "145 with a mark further above"));
        match m {
            1 => {
                let marked = was(before, [last]);
                classes.count_if(marked, class("144 on one marked line", "145 on one marked line"));
            }
            2 if up => classes.count_if(was(before, [last]), "144 on two lines, the second marked"),
            2 => classes.count_if(was(before, [a + 1]), "145 on two lines, the first marked"),
            _ if up => classes.count_if(was(before, [last]), "144 clears the line before the blank one"),
            _ => {
                classes.count_if(was(before, [last - 1]), "145 clears the last line");
                classes.count_if(was(before, [last - 2]), "145 clears the last but one");
            }
        }
    }

    pub fn lines(&self) -> Vec<(String, u64)> {
        self.0.lines()
    }
}
