//! What the late wrap reached.

use super::before::{filled, Before};
use crate::classes::Classes;
use reference::apply::Standing;
use reference::read::Item;
use reference::settings::MARKS;

#[rustfmt::skip]
const CLASSES: &[&str] = &[
    "rule 1 in the last column", "flag set in mode 0", "flag set in mode 1", "flag set in mode 2", "flag set in mode 3",
    "flag set on screen 2", "flag set by 37", "flag set in the last line", "flag set on a screen of one column",
    "late step by printing", "late step by 37", "late step with a lift", "late step in mode 1",
    "late step in mode 2", "late step on screen 2", "late step that sets the flag again",
    "late step that moves the window", "late step into a marked place", "late step from a place above the window",
    "flag cleared by code 8", "flag cleared by code 10", "flag cleared by code 10 with a lift",
    "flag cleared by code 12", "flag cleared by code 13", "flag kept by another code",
    "flag cleared by 42", "flag cleared by 61", "flag cleared by 61 onto the last column",
    "flag of screen 1 cleared by 208", "flag of screen 2 cleared by 208", "208 by rule 2",
    "flag kept by 80", "flag kept by 84", "flag kept by 89", "flag kept by 144", "flag kept by 145",
    "flag kept by a window that moves", "flag kept by 209 from its screen", "flag kept by 209 to its screen",
    "flag kept by 210", "flag kept by a changed 211", "flag kept by a stored setting", "flag kept by a refusal",
    "42 with the other screen's flag", "61 with the other screen's flag", "printing with the other screen's flag",
];

pub struct Late(Classes);

impl Default for Late {
    fn default() -> Late {
        Late(Classes::new(CLASSES))
    }
}

impl Late {
    pub fn refused(&mut self, before: &Before) {
        self.0.count_if(before.place.waiting == 1, "flag kept by a refusal");
    }

    pub fn item(&mut self, item: &Item, before: &Before, after: &Standing) {
        let waits = before.place.waiting == 1;
        match *item {
            Item::Printed(_) => self.printing(false, before, after),
            Item::Sequence { second: 37, .. } => self.printing(true, before, after),
            Item::Code(code) if waits => self.code(code, before),
            Item::Sequence { second, .. } => self.sequence(second, before, after),
            _ => {}
        }
    }

    fn printing(&mut self, by_37: bool, before: &Before, after: &Standing) {
        let classes = &mut self.0;
        if before.settings.rule == 1 {
            return classes.count_if(before.in_last_column(), "rule 1 in the last column");
        }
        let screen = before.screen();
        let other = before.settings.places[1 - screen].waiting == 1;
        classes.count_if(other, "printing with the other screen's flag");
        let place = after.settings.places[screen];
        if before.place.waiting == 1 {
            self.late_step(by_37, before, after);
        }
        let classes = &mut self.0;
        if place.waiting == 1 {
            const MODES: [&str; 4] =
                ["flag set in mode 0", "flag set in mode 1", "flag set in mode 2", "flag set in mode 3"];
            classes.count(MODES[before.mode()]);
            classes.count_if(screen == 1, "flag set on screen 2");
            classes.count_if(by_37, "flag set by 37");
            let last = usize::from(place.line) == before.settings.lines(screen);
            classes.count_if(last, "flag set in the last line");
            classes.count_if(place.column == 1, "flag set on a screen of one column");
        }
    }

    fn late_step(&mut self, by_37: bool, before: &Before, after: &Standing) {
        let classes = &mut self.0;
        let place = after.settings.places[before.screen()];
        classes.count(if by_37 { "late step by 37" } else { "late step by printing" });
        classes.count_if(before.in_last_line(), "late step with a lift");
        classes.count_if(before.mode() == 1, "late step in mode 1");
        classes.count_if(before.mode() == 2, "late step in mode 2");
        classes.count_if(before.screen() == 1, "late step on screen 2");
        classes.count_if(place.waiting == 1, "late step that sets the flag again");
        let moved = place.top != before.place.top;
        classes.count_if(moved, "late step that moves the window");
        let emptied = filled(&after.layer[..MARKS]) < before.marks;
        let alone = !moved && !before.in_last_line();
        classes.count_if(emptied && alone, "late step into a marked place");
        let above = before.place.line < before.place.top;
        classes.count_if(above, "late step from a place above the window");
    }

    fn code(&mut self, code: u8, before: &Before) {
        self.0.count(match code {
            8 => "flag cleared by code 8",
            10 if before.in_last_line() => "flag cleared by code 10 with a lift",
            10 => "flag cleared by code 10",
            12 => "flag cleared by code 12",
            13 => "flag cleared by code 13",
            _ => "flag kept by another code",
        });
    }

    fn sequence(&mut self, second: u8, before: &Before, after: &Standing) {
        let classes = &mut self.0;
        let flags = before.settings.places.map(|place| place.waiting == 1);
        let screen = before.screen();
        classes.count_if(second == 42 && flags[1 - screen], "42 with the other screen's flag");
        classes.count_if(second == 61 && flags[1 - screen], "61 with the other screen's flag");
        if second == 208 {
            classes.count_if(before.settings.rule == 2, "208 by rule 2");
            classes.count_if(flags[0], "flag of screen 1 cleared by 208");
            classes.count_if(flags[1], "flag of screen 2 cleared by 208");
        }
        let to = usize::from(after.settings.selected);
        classes.count_if(second == 209 && to != screen && flags[to], "flag kept by 209 to its screen");
        if flags[screen] {
            self.waiting(second, before, after);
        }
    }

    /// A sequence while the selected screen's cursor waits.
    fn waiting(&mut self, second: u8, before: &Before, after: &Standing) {
        let place = after.settings.places[before.screen()];
        let last = usize::from(place.column) == after.settings.columns(before.screen());
        let moved = place.top != before.place.top;
        self.0.count(match second {
            42 => "flag cleared by 42",
            61 if last => "flag cleared by 61 onto the last column",
            61 => "flag cleared by 61",
            80 => "flag kept by 80",
            84 => "flag kept by 84",
            89 => "flag kept by 89",
            144 => "flag kept by 144",
            145 => "flag kept by 145",
            150 | 151 | 212 | 213 | 215 if moved => "flag kept by a window that moves",
            209 if after.settings.selected != before.settings.selected => "flag kept by 209 from its screen",
            210 => "flag kept by 210",
            211 if after.settings.display != before.settings.display => "flag kept by a changed 211",
            50 | 51 | 67 | 148 | 149 | 160..=165 | 224 | 240..=247 => "flag kept by a stored setting",
            _ => return,
        });
    }

    pub fn lines(&self) -> Vec<(String, u64)> {
        self.0.lines()
    }
}
