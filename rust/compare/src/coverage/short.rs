//! What the short messages reached: from which glass, which places they print in, and
//! each cause by which all places are painted.

use super::before::{filled, Before};
use crate::classes::Classes;
use crate::generate::{Call, SIZES};
use reference::apply::Standing;
use reference::picture::{cursor_place, paint};
use reference::read::{idle, Item};
use reference::settings::{LONGEST_MESSAGE, MARKS, SHOWN};
use reference::{sound, Answer, Settings};
use std::collections::BTreeMap;

#[rustfmt::skip]
const CLASSES: &[&str] = &[
    "short 0", "short 1", "short 2", "short 3", "short 16",
    "order: short 1 with 2", "order: short 1 with 3", "order: short 1 with 16",
    "order: short 2 with 3", "order: short 2 with 16", "order: short 3 with 16",
    "short message empty", "short message of 1 byte", "short message of 2 to 20", "short message of more", "short message of 4096", "short message of 4097",
    "from a true glass", "from a glass true but for row 8", "from a glass stale in rows 1 to 7",
    "row 8 stale, display 0", "row 8 stale, display 1", "row 8 stale under secret",
    "all painted in mode 0", "all painted in mode 1", "all painted in mode 2", "all painted in mode 3",
    "little painted in mode 0", "little painted in mode 1", "little painted in mode 2", "little painted in mode 3",
    "row 8 alone painted", "stale places stay stale", "a stale place painted by printing", "little painted under secret",
    "printed place: mode 0 screen 1", "printed place: mode 0 screen 2", "printed place: mode 1, left half", "printed place: mode 1, right half",
    "printed place: mode 2 screen 1", "printed place: mode 2 screen 2", "printed place: mode 3",
    "printed place in row 8", "printed place by 37", "printed place behind the late step", "late step from above the window into it",
    "late step out of a window that does not follow", "a place printed twice", "printed where a mark stood", "printed outside the window",
    "printed below the window with the key line",
    "top moved and back again", "refused, else all were painted", "a copy and little painted", "61 and little painted", "another sequence and little painted",
    "printed bytes, 8, 10 and 13 alone", "the same with a step to the next line", "the same with a late step",
];

/// Sequences after which all is painted, written out here once more.
const WIDE: [u8; 16] = [42, 84, 89, 123, 125, 144, 145, 150, 151, 208, 209, 210, 211, 212, 213, 215];

pub struct Short {
    classes: Classes,
    /// messages in which nothing else made all be painted
    alone: BTreeMap<String, u64>,
    now: Walked,
}

/// One message while it is read.
#[derive(Default)]
struct Walked {
    top: u8,
    /// by place
    stale: Vec<bool>,
    /// why all is painted
    causes: Vec<String>,
    /// of the printed cells
    places: Vec<usize>,
    /// classes that count only where little is painted
    little: Vec<&'static str>,
    /// an item besides printed bytes, 8, 10 and 13
    others: bool,
    stepped: bool,
    late: bool,
}

impl Default for Short {
    fn default() -> Short {
        let seconds = WIDE.iter().map(|second| second.to_string());
        let still = [150, 151, 209, 211, 212, 213, 215].map(|second| format!("{second} idle in mode 3"));
        let lifts = ["code 10", "printing", "37", "the late step", "the late step of 37"];
        let tops = ["printing", "37", "61", "code 8", "code 10", "code 13"];
        let names = seconds
            .chain(still)
            .chain(["code 12".to_string()])
            .chain(lifts.map(|by| format!("a lift by {by}")))
            .chain(tops.map(|by| format!("a top moved by {by}")));
        let alone = names.map(|name| (name, 0)).collect();
        Short { classes: Classes::new(CLASSES), alone, now: Walked::default() }
    }
}

impl Short {
    pub fn call(&mut self, call: &Call, settings: &Settings, answer: &Answer) {
        let classes = &mut self.classes;
        let (length, waits) = (call.message.len(), settings.held > 0);
        let (long, broken) = (length > LONGEST_MESSAGE, !sound(settings));
        const NUMBERS: [&str; 4] = ["short 0", "short 1", "short 2", "short 3"];
        classes.count(NUMBERS.get(usize::from(answer.number)).copied().unwrap_or("short 16"));
        if call.sizes != SIZES {
            classes.count_if(long, "order: short 1 with 2");
            classes.count_if(broken, "order: short 1 with 3");
            classes.count_if(waits, "order: short 1 with 16");
        } else if long {
            classes.count_if(broken, "order: short 2 with 3");
            classes.count_if(waits, "order: short 2 with 16");
        } else {
            classes.count_if(broken && waits, "order: short 3 with 16");
        }
        classes.count(match length {
            0 => "short message empty",
            1 => "short message of 1 byte",
            2..=20 => "short message of 2 to 20",
            4096 => "short message of 4096",
            4097 => "short message of 4097",
            _ => "short message of more",
        });
    }

    /// Before a message that is served.
    pub fn begins(&mut self, standing: &Standing, shown: &[u8]) {
        let settings = &standing.settings;
        let mut picture = vec![0; SHOWN];
        paint(settings, standing.cells, standing.layer, &mut picture);
        let stale: Vec<bool> = picture.iter().zip(shown).map(|(code, shown)| code != shown).collect();
        let [rows, row_8] = [&stale[..560], &stale[560..]].map(|part| part.contains(&true));
        let classes = &mut self.classes;
        classes.count(match (rows, row_8) {
            (false, false) => "from a true glass",
            (false, true) => "from a glass true but for row 8",
            _ => "from a glass stale in rows 1 to 7",
        });
        classes.count_if(row_8 && settings.display == 0, "row 8 stale, display 0");
        classes.count_if(row_8 && settings.display == 1, "row 8 stale, display 1");
        classes.count_if(row_8 && settings.secret == 1, "row 8 stale under secret");
        let top = settings.places[usize::from(settings.selected)].top;
        self.now = Walked { top, stale, ..Walked::default() };
    }

    /// An item, with the byte behind its first.
    pub fn item(&mut self, item: &Item, second: Option<&u8>, before: &Before, after: &Standing) {
        let now = &mut self.now;
        now.others |= !matches!(item, Item::Printed(_) | Item::Code(8 | 10 | 13));
        if let Some(cause) = cause(item, before, after) {
            return now.causes.push(cause);
        }
        match item {
            Item::Printed(_) | Item::Sequence { second: 37, .. } => now.printed(item, before, after),
            Item::Sequence { second: 61, .. } => now.little.push("61 and little painted"),
            Item::Sequence { second: 80, .. } => now.little.push("a copy and little painted"),
            Item::Sequence { .. } => now.little.push("another sequence and little painted"),
            Item::Refusal { .. } if second.is_some_and(|second| WIDE.contains(second)) => {
                now.little.push("refused, else all were painted")
            }
            Item::Refusal { .. } | Item::Code(_) => {}
        }
    }

    /// The message is read.
    pub fn ends(&mut self, message: &[u8], after: &Standing) {
        let now = std::mem::take(&mut self.now);
        let classes = &mut self.classes;
        let settings = &after.settings;
        let mode = usize::from(settings.mode);
        if now.causes.is_empty() {
            classes.count(LITTLE[mode]);
            classes.count_if(settings.secret == 1, "little painted under secret");
            return now.count_little(message, classes);
        }
        classes.count(ALL[mode]);
        let back = now.top == settings.places[usize::from(settings.selected)].top;
        let tops = now.causes.iter().all(|cause| cause.starts_with("a top"));
        classes.count_if(back && tops, "top moved and back again");
        if let [cause] = &now.causes[..] {
            *self.alone.get_mut(cause).expect("every cause has its name") += 1;
        }
    }

    pub fn lines(&self) -> Vec<(String, u64)> {
        let mut lines = self.classes.lines();
        let alone = self.alone.iter();
        lines.extend(alone.map(|(name, &count)| (format!("all painted by {name} alone"), count)));
        lines
    }
}

const ALL: [&str; 4] =
    ["all painted in mode 0", "all painted in mode 1", "all painted in mode 2", "all painted in mode 3"];
const LITTLE: [&str; 4] = [
    "little painted in mode 0",
    "little painted in mode 1",
    "little painted in mode 2",
    "little painted in mode 3",
];

impl Walked {
    /// A printed character that lifted nothing and moved no top.
    fn printed(&mut self, item: &Item, before: &Before, after: &Standing) {
        let late = before.place.waiting == 1;
        self.late |= late;
        self.stepped |= before.leaves_its_line();
        let (line, column) = before.printed_at();
        let top = usize::from(before.place.top);
        let Some(at) = shown_at(before, line, column) else {
            let eighth = before.settings.display == 0 && before.mode() == 0 && line == top + 7;
            self.little.push("printed outside the window");
            self.little.extend(eighth.then_some("printed below the window with the key line"));
            let left = late && line == top + before.settings.height();
            return self.little.extend(left.then_some("late step out of a window that does not follow"));
        };
        self.places.push(at);
        self.little.push(match (before.mode(), before.screen()) {
            (0, 0) => "printed place: mode 0 screen 1",
            (0, _) => "printed place: mode 0 screen 2",
            (1, _) if at % 80 < 40 => "printed place: mode 1, left half",
            (1, _) => "printed place: mode 1, right half",
            (2, 0) => "printed place: mode 2 screen 1",
            (2, _) => "printed place: mode 2 screen 2",
            _ => "printed place: mode 3",
        });
        let by_37 = !matches!(item, Item::Printed(_));
        self.little.extend(by_37.then_some("printed place by 37"));
        self.little.extend((at >= 560).then_some("printed place in row 8"));
        self.little.extend(late.then_some("printed place behind the late step"));
        let above = late && line == top;
        self.little.extend(above.then_some("late step from above the window into it"));
        let marks = filled(&after.layer[..MARKS]);
        self.little.extend((marks < before.marks).then_some("printed where a mark stood"));
    }

    fn count_little(mut self, message: &[u8], classes: &mut Classes) {
        self.little.iter().for_each(|class| classes.count(class));
        if !self.others && !message.is_empty() {
            classes.count("printed bytes, 8, 10 and 13 alone");
            classes.count_if(self.stepped, "the same with a step to the next line");
            classes.count_if(self.late, "the same with a late step");
        }
        let printed = self.places.len();
        self.places.sort_unstable();
        self.places.dedup();
        classes.count_if(printed == 0, "row 8 alone painted");
        classes.count_if(self.places.len() < printed, "a place printed twice");
        let painted = self.places.iter().any(|&at| self.stale[at]);
        classes.count_if(painted, "a stale place painted by printing");
        let stays = (0..560).any(|at| self.stale[at] && self.places.binary_search(&at).is_err());
        classes.count_if(stays, "stale places stay stale");
    }
}

fn prints(item: &Item) -> bool {
    matches!(item, Item::Printed(_) | Item::Sequence { second: 37, .. })
}

/// Why an item makes all places be painted; none if it does not.
fn cause(item: &Item, before: &Before, after: &Standing) -> Option<String> {
    let name = match *item {
        Item::Code(12) => return Some("code 12".to_string()),
        Item::Sequence { second, .. } if WIDE.contains(&second) => {
            let idle = if idle(second, &before.settings) { " idle in mode 3" } else { "" };
            return Some(format!("{second}{idle}"));
        }
        Item::Printed(_) => "printing".to_string(),
        Item::Code(code) => format!("code {code}"),
        Item::Sequence { second, .. } => second.to_string(),
        Item::Refusal { .. } => return None,
    };
    let down = prints(item) && before.leaves_its_line() || matches!(item, Item::Code(10));
    if down && before.in_last_line() {
        let late = prints(item) && before.place.waiting == 1;
        return Some(match (late, &name[..]) {
            (true, "37") => "a lift by the late step of 37".to_string(),
            (true, _) => "a lift by the late step".to_string(),
            _ => format!("a lift by {name}"),
        });
    }
    let moved = after.settings.places[before.screen()].top != before.place.top;
    moved.then(|| format!("a top moved by {name}"))
}

/// The place where the window shows a cell of the selected screen.
fn shown_at(before: &Before, line: usize, column: usize) -> Option<usize> {
    let mut settings = before.settings;
    let place = &mut settings.places[before.screen()];
    (place.line, place.column) = (line as u8, column as u8);
    cursor_place(&settings)
}
