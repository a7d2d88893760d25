//! What the key texts and the key line reached.

use super::before::Before;
use crate::classes::Classes;
use crate::generate::Call;
use reference::apply::Standing;
use reference::picture::place;
use reference::settings::{KEYS, KEY_TEXT};
use reference::{sound, Answer, Settings};
use std::collections::BTreeMap;

#[rustfmt::skip]
const CLASSES: &[&str] = &[
    "key text 0", "key text 3", "key text 17", "order: key text 3 with 17",
    "key number 0", "key number 11", "key number 257", "key number further on",
    "key text of 7", "key text of 9", "key text of none", "key and text both wrong",
    "key text set while bytes wait", "key text set without the key line",
    "key line shown in mode 0", "key line shown in mode 1", "key line shown in mode 2",
    "key line under secret", "key line under a mark", "key line with a code below 32 copied",
    "211 to 0 in mode 0", "211 to 0 in mode 1", "211 to 0 in mode 2",
    "211 to 1 in mode 0", "211 to 1 in mode 1", "211 to 1 in mode 2",
    "layer emptied by 211", "layer kept by 211", "211 lowers the step", "211 leaves a step below H",
    "211 lowers the selected top", "211 lowers the other top", "211 lowers both tops",
    "211 leaves the cursor below its window", "211 from screen 2",
    "208 with the key line", "window of 7 at the end of the cells", "window of 14 at its end",
    "215 with a window of 7", "215 with a window of 14",
    "tracking after 61 with the key line", "tracking by the least amount with the key line",
    "place emptied in the right half, key line", "printed below the window, row 8 marked there",
];

pub struct KeyLine {
    classes: Classes,
    /// keys whose text was set
    keys: BTreeMap<usize, u64>,
}

impl Default for KeyLine {
    fn default() -> KeyLine {
        KeyLine { classes: Classes::new(CLASSES), keys: (1..=KEYS).map(|key| (key, 0)).collect() }
    }
}

impl KeyLine {
    pub fn key_text(&mut self, number: usize, call: &Call, settings: &Settings, answer: &Answer) {
        let classes = &mut self.classes;
        let (no_key, length) = (!(1..=KEYS).contains(&number), call.message.len());
        match answer.number {
            0 => classes.count("key text 0"),
            3 => classes.count("key text 3"),
            _ => classes.count("key text 17"),
        }
        let wrong = no_key || length != KEY_TEXT;
        classes.count_if(wrong && !sound(settings), "order: key text 3 with 17");
        if answer.number == 17 {
            classes.count_if(number == 0, "key number 0");
            classes.count_if(number == 11, "key number 11");
            classes.count_if(number == 257, "key number 257");
            classes.count_if(number > 257, "key number further on");
            classes.count_if(!no_key && length == 7, "key text of 7");
            classes.count_if(!no_key && length == 9, "key text of 9");
            classes.count_if(!no_key && length == 0, "key text of none");
            classes.count_if(no_key && length != KEY_TEXT, "key and text both wrong");
        } else if answer.number == 0 {
            classes.count_if(settings.held > 0, "key text set while bytes wait");
            classes.count_if(settings.display == 1, "key text set without the key line");
            *self.keys.get_mut(&number).expect("only keys are served") += 1;
        }
    }

    /// What a call leaves, which is painted.
    pub fn painted(&mut self, after: &Standing) {
        let classes = &mut self.classes;
        let settings = &after.settings;
        if settings.display == 1 {
            return;
        }
        const SHOWN: [&str; 3] =
            ["key line shown in mode 0", "key line shown in mode 1", "key line shown in mode 2"];
        let marked = after.layer[place(8, 1)..=place(8, 80)].iter().any(|&mark| mark != 0);
        if settings.secret == 1 {
            return classes.count("key line under secret");
        }
        classes.count(SHOWN[usize::from(settings.mode)]);
        classes.count_if(marked, "key line under a mark");
        let screen = usize::from(settings.selected);
        let last = usize::from(settings.places[screen].top) == settings.greatest_top(screen);
        // 48 lines of 80 are all the cells
        let full = settings.mode == 0 && screen == 1 && settings.lines(0) + settings.lines(1) == 48;
        classes.count_if(last && full, "window of 7 at the end of the cells");
        classes.count_if(last && settings.mode == 1, "window of 14 at its end");
    }

    /// An accepted sequence.
    pub fn sequence(&mut self, second: u8, before: &Before, after: &Standing) {
        let classes = &mut self.classes;
        let given = &before.settings;
        if second == 211 {
            return self.display(before, after);
        }
        if given.display == 1 {
            return;
        }
        let top = after.settings.places[before.screen()].top;
        let low = given.texts.iter().any(|&code| code < 32);
        match second {
            80 => classes.count_if(low && given.secret == 0, "key line with a code below 32 copied"),
            208 => classes.count("208 with the key line"),
            215 if before.mode() == 1 => classes.count("215 with a window of 14"),
            215 => classes.count("215 with a window of 7"),
            61 => classes.count_if(top != before.place.top, "tracking after 61 with the key line"),
            _ => {}
        }
    }

    fn display(&mut self, before: &Before, after: &Standing) {
        let classes = &mut self.classes;
        let (given, left) = (&before.settings, &after.settings);
        if given.display == left.display {
            return classes.count_if(before.marks > 0, "layer kept by 211");
        }
        const CHANGES: [[&str; 3]; 2] = [
            ["211 to 0 in mode 0", "211 to 0 in mode 1", "211 to 0 in mode 2"],
            ["211 to 1 in mode 0", "211 to 1 in mode 1", "211 to 1 in mode 2"],
        ];
        classes.count(CHANGES[usize::from(left.display)][before.mode()]);
        classes.count_if(before.marks > 0, "layer emptied by 211");
        let lowered = [0, 1].map(|screen| left.places[screen].top < given.places[screen].top);
        let (here, other) = (lowered[before.screen()], lowered[1 - before.screen()]);
        classes.count_if(here, "211 lowers the selected top");
        classes.count_if(other, "211 lowers the other top");
        classes.count_if(here && other, "211 lowers both tops");
        classes.count_if(left.step < given.step, "211 lowers the step");
        classes.count_if(given.step > 1 && left.step == given.step, "211 leaves a step below H");
        classes.count_if(before.screen() == 1, "211 from screen 2");
        let below = usize::from(before.place.top) + left.height() <= usize::from(before.place.line);
        classes.count_if(below && left.display == 0, "211 leaves the cursor below its window");
    }

    /// A window that tracking moved by the least amount.
    pub fn moved(&mut self, before: &Before) {
        let key_line = before.settings.display == 0;
        self.classes.count_if(key_line, "tracking by the least amount with the key line");
    }

    /// A printed character that moved no window and lifted nothing, and
    /// whether it took a mark away.
    pub fn printed(&mut self, emptied: bool, before: &Before, after: &Standing) {
        let classes = &mut self.classes;
        if before.settings.display == 1 {
            return;
        }
        let (line, column) = before.printed_at();
        let row = (line + 1).saturating_sub(before.place.top.into());
        let right = before.mode() == 1 && row > 7;
        classes.count_if(emptied && right, "place emptied in the right half, key line");
        // where the window without the key line would show it
        let eighth = before.mode() == 0 && row == 8;
        let marked = after.layer[place(8, column)] != 0;
        classes.count_if(eighth && marked, "printed below the window, row 8 marked there");
    }

    pub fn lines(&self) -> Vec<(String, u64)> {
        let mut lines = self.classes.lines();
        lines.extend(self.keys.iter().map(|(key, &count)| (format!("text of key {key} set"), count)));
        lines
    }
}
