//! What an item was and did, seen by what stands before and after it.

use super::before::{filled, Before};
use super::Coverage;
use reference::apply::Standing;
use reference::read::{idle, Item};
use reference::settings::MARKS;
use reference::Place;

impl Coverage {
    pub(super) fn item(&mut self, item: &Item, length: usize, before: &Before, after: &Standing) {
        const SCREENS: [[&str; 2]; 4] = [
            ["mode 0 screen 1", "mode 0 screen 2"],
            ["mode 1 screen 1", "mode 1 screen 2"],
            ["mode 2 screen 1", "mode 2 screen 2"],
            ["mode 3", "mode 3"],
        ];
        self.count(SCREENS[before.mode()][before.screen()]);
        match *item {
            Item::Printed(_) => self.printing(false, before, after),
            Item::Code(code) => self.code(code, before, after),
            Item::Sequence { second, parameters } => {
                *self.accepted.get_mut(&second).unwrap() += 1;
                if idle(second, &before.settings) {
                    return;
                }
                self.count_ends(second, parameters, before);
                self.count_if(parameters.contains(&27), "ESC as an accepted parameter");
                self.count_if(second == 209 && length == 2, "209 at the very end");
                self.sequence(second, parameters, before, after);
            }
            Item::Refusal { .. } => {}
        }
    }

    fn sequence(&mut self, second: u8, parameters: &[u8], before: &Before, after: &Standing) {
        self.key_line.sequence(second, before, after);
        match second {
            37 => self.printing(true, before, after),
            61 => self.placing(before, after),
            80 => self.copy(before, after),
            144 | 145 => self.scrolling(second, parameters, before),
            150 | 151 | 212 | 213 | 215 => self.window(second, before, after),
            208 => self.mode_setting(parameters[0], before),
            _ => {}
        }
        let same = before.settings.selected == after.settings.selected;
        let class = match second {
            42 => "layer emptied by 42",
            84 => "layer emptied by 84",
            89 => "layer emptied by 89",
            209 if same => "layer emptied by 209 to the same screen",
            209 => "layer emptied by 209 to the other screen",
            _ => return,
        };
        self.count_if(before.marks > 0, class);
    }

    fn printing(&mut self, by_37: bool, before: &Before, after: &Standing) {
        let wrap = before.leaves_its_line();
        if wrap {
            const WRAPS: [&str; 4] = ["wrap in mode 0", "wrap in mode 1", "wrap in mode 2", "wrap in mode 3"];
            self.count(WRAPS[before.mode()]);
            self.count_if(before.settings.columns(before.screen()) == 1, "wrap on one column");
        }
        let lift = wrap && before.in_last_line();
        let place = after.settings.places[before.screen()];
        if lift {
            self.lift(by_37, before);
        } else if place.top == before.place.top {
            self.emptied_place(by_37, before, after);
        }
        let how = if by_37 {
            ["tracking least, up, 37", "tracking least, down, 37"]
        } else {
            ["tracking least, up, printing", "tracking least, down, printing"]
        };
        self.tracking(how, before, place);
    }

    fn lift(&mut self, by_37: bool, before: &Before) {
        const PRINTING: [&str; 4] = [
            "lift by printing in mode 0",
            "lift by printing in mode 1",
            "lift by printing in mode 2",
            "lift by printing in mode 3",
        ];
        self.count(if by_37 { "lift by 37" } else { PRINTING[before.mode()] });
        self.count_if(before.screen() == 1, "lift on screen 2");
        self.count_if(before.marks > 0, "layer emptied by a lift in printing");
    }

    fn emptied_place(&mut self, by_37: bool, before: &Before, after: &Standing) {
        let emptied = filled(&after.layer[..MARKS]) < before.marks;
        self.key_line.printed(emptied, before, after);
        let code = filled(&after.layer[MARKS..]) < before.codes;
        self.count_if(code && !emptied, "code of an unmarked place emptied");
        if !emptied {
            return;
        }
        let row = before.printed_at().0 + 1 - usize::from(before.place.top);
        self.count(if by_37 { "place emptied by 37" } else { "place emptied by printing" });
        self.count_if(before.settings.secret == 1, "place emptied under secret");
        let right = before.mode() == 1 && row > before.settings.screen_rows();
        self.count_if(right, "place emptied in the right half");
        let right = before.mode() == 2 && before.screen() == 1;
        self.count_if(right, "place emptied on screen 2 of mode 2");
    }

    /// A window moved by the least amount, up or down.
    fn tracking(&mut self, how: [&'static str; 2], before: &Before, place: Place) {
        let height = before.settings.height() as u8;
        let missed = place.line < place.top || place.line >= place.top + height;
        self.count_if(missed, "tracking off and the cursor missed");
        if place.top == before.place.top {
            return;
        }
        self.key_line.moved(before);
        self.count(how[usize::from(place.top > before.place.top)]);
        self.count_if(before.marks > 0, "layer emptied by tracking by the least amount");
    }

    fn code(&mut self, code: u8, before: &Before, after: &Standing) {
        let place = after.settings.places[before.screen()];
        let how = match code {
            8 => {
                let first = before.place.column == 1;
                self.count(if first { "code 8 at column 1" } else { "code 8 further on" });
                ["tracking least, up, code 8", "tracking least, down, code 8"]
            }
            10 => {
                self.line_step(before, place);
                ["tracking least, up, code 10", "tracking least, down, code 10"]
            }
            12 => return self.count_if(before.marks > 0, "layer emptied by code 12"),
            13 => {
                self.count("code 13");
                ["tracking least, up, code 13", "tracking least, down, code 13"]
            }
            _ => return self.count("other code"),
        };
        self.tracking(how, before, place);
    }

    fn line_step(&mut self, before: &Before, place: Place) {
        if before.in_last_line() {
            self.count("lift by code 10");
            self.count_if(before.screen() == 1, "lift on screen 2");
            self.count_if(before.marks > 0, "layer emptied by a lift by code 10");
        } else {
            let kept = before.marks > 0 && place.top == before.place.top;
            self.count_if(kept, "layer kept by a line step");
        }
    }

    fn placing(&mut self, before: &Before, after: &Standing) {
        let top = after.settings.places[before.screen()].top;
        if top == before.place.top {
            return self.count_if(before.marks > 0, "layer kept by 61");
        }
        let down = top > before.place.top;
        self.count(if down { "tracking after 61, down" } else { "tracking after 61, up" });
        self.count_if(before.marks > 0, "layer emptied by tracking after 61");
    }

    fn copy(&mut self, before: &Before, after: &Standing) {
        if before.mode() == 3 {
            // told of by the dots' own classes
            return;
        }
        self.count(["copy in mode 0", "copy in mode 1", "copy in mode 2"][before.mode()]);
        let secret = before.settings.secret == 1;
        self.count_if(secret, "copy under secret");
        self.count_if(!secret && before.marks > 0, "copy with marks");
        let marked = (0..MARKS).any(|at| after.layer[at] != 0 && after.layer[MARKS + at] < 32);
        self.count_if(!secret && marked, "copy with a code below 32");
        self.count_if(before.printed > 0, "second copy in a call");
    }

    fn scrolling(&mut self, second: u8, parameters: &[u8], before: &Before) {
        let lines = before.settings.lines(before.screen());
        let (a, m) = (usize::from(parameters[0]), usize::from(parameters[1]));
        self.count_if(m == 1, "scrolled region of one line");
        self.count_if(m == lines, "scrolled region of all lines");
        self.count_if(m > 1 && a > 0 && a + m < lines, "scrolled region inside");
        let class = if second == 144 { "layer emptied by 144" } else { "layer emptied by 145" };
        self.count_if(before.marks > 0, class);
    }

    fn window(&mut self, second: u8, before: &Before, after: &Standing) {
        let top = after.settings.places[before.screen()].top;
        let moved = top != before.place.top;
        let (emptied, kept) = match second {
            150 => ("layer emptied by 150", "layer kept by 150"),
            151 => ("layer emptied by 151", "layer kept by 151"),
            212 => ("layer emptied by 212", "layer kept by 212"),
            213 => ("layer emptied by 213", "layer kept by 213"),
            _ => ("layer emptied by 215", "layer kept by 215"),
        };
        self.count_if(before.marks > 0, if moved { emptied } else { kept });
        self.held(second, before, top);
    }

    /// Whether a window was held at an end of its range.
    fn held(&mut self, second: u8, before: &Before, top: u8) {
        let distance = top.abs_diff(before.place.top);
        let whole = distance == before.settings.step;
        let half = before.settings.height() as u8 / 2;
        let class = match second {
            150 if whole => "150 by a whole step",
            150 => "150 held at the first line",
            151 if whole => "151 by a whole step",
            151 => "151 held at the last line",
            215 if top + half == before.place.line => "215 not held",
            215 if top == 1 => "215 held at the first line",
            215 => "215 held at the last line",
            _ => return,
        };
        self.count(class);
    }

    fn mode_setting(&mut self, mode: u8, before: &Before) {
        const CHANGES: [[&str; 4]; 4] = [
            ["mode 0 to 0", "mode 0 to 1", "mode 0 to 2", "mode 0 to 3"],
            ["mode 1 to 0", "mode 1 to 1", "mode 1 to 2", "mode 1 to 3"],
            ["mode 2 to 0", "mode 2 to 1", "mode 2 to 2", "mode 2 to 3"],
            ["mode 3 to 0", "mode 3 to 1", "mode 3 to 2", "mode 3 to 3"],
        ];
        self.count(CHANGES[before.mode()][usize::from(mode)]);
        self.count_if(before.marks > 0, "layer emptied by 208");
        self.count_if(before.settings.secret == 1, "208 with secret on");
    }
}
