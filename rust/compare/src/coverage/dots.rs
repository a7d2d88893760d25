//! What mode 3 reached.

use super::before::Before;
use crate::classes::Classes;
use crate::generate::dots::{IDLE, IDLE_WITH_ONE};
use reference::apply::Standing;
use reference::dots::{is_on, line, number, Dot};
use reference::read::{idle, Item};
use std::collections::BTreeMap;

#[rustfmt::skip]
const CLASSES: &[&str] = &[
    "199 sets a dot", "199 sets a dot that is set", "199 clears a dot", "199 clears a dot that is not set",
    "199 at the first dot", "199 at the last dot", "198 off", "198 on", "198 inverts",
    "line of one dot", "line of one dot that does not act", "line lying", "line standing",
    "line right and down, lying", "line right and down, standing", "line right and up, lying", "line right and up, standing",
    "line left and down, lying", "line left and down, standing", "line left and up, lying", "line left and up, standing",
    "equal distances, right and down", "equal distances, right and up", "equal distances, left and down", "equal distances, left and up",
    "line whose offset stands half way", "line of more than 16 dots", "line of 480 dots", "line of 64 dots standing",
    "mask of all", "mask of none", "mask in its second byte alone", "mask with a dot left out of the first 16",
    "198 over dots that are set", "dots changed under secret",
    "42 clears dots", "code 12 clears dots", "dots cleared by 208 to mode 0", "dots cleared by 208 to mode 1",
    "dots cleared by 208 to mode 2", "dots cleared by 208 to mode 3",
    "42 in mode 0 keeps dots", "42 in mode 1 keeps dots", "42 in mode 2 keeps dots", "code 12 keeps dots",
    "198 does nothing", "199 does nothing", "198 not judged", "199 not judged", "refused 208 keeps dots",
    "lift by printing keeps dots", "lift by code 10 keeps dots", "84 keeps dots", "89 keeps dots", "144 keeps dots", "145 keeps dots",
    "idle with marks", "idle by rule 2 with the flag", "209 at the very end, idle",
    "copy of dots", "copy of dots under secret", "second copy of dots", "13 with room for a copy of text", "13 with room 3839",
    "copy with room 3840", "two copies with room 7680", "13 with room 7679",
    "208 to mode 3 from another type", "208 to mode 3 with the key line", "208 to mode 3 by rule 2", "208 to mode 3 from screen 2",
    "208 to mode 3 with the boundary kept", "type 3 outlives mode 3", "198 refused with dots", "199 refused with dots",
    "text in mode 3 clears a mark", "210 in mode 3", "61 in mode 3", "224 in mode 3", "pattern of 198 over a cut",
];

pub struct Dots {
    classes: Classes,
    /// by second byte: idle, idle with a parameter that is judged elsewhere, and
    /// the first bad parameters
    others: BTreeMap<String, u64>,
}

impl Default for Dots {
    fn default() -> Dots {
        let mut others = BTreeMap::new();
        for second in IDLE {
            others.insert(format!("idle in mode 3: {second}"), 0);
        }
        for second in IDLE_WITH_ONE {
            others.insert(format!("idle in mode 3: {second}, out of its range elsewhere"), 0);
        }
        for (second, parameters) in [(198, &[2, 4, 6, 8, 11][..]), (199, &[1, 2, 4])] {
            for parameter in parameters {
                others.insert(first_bad(second, *parameter), 0);
                if Some(parameter) != parameters.last() {
                    others.insert(first_bad(second, *parameter) + ", a later one bad too", 0);
                }
            }
        }
        Dots { classes: Classes::new(CLASSES), others }
    }
}

fn first_bad(second: u8, parameter: u8) -> String {
    format!("first bad: {second}, parameter {parameter}")
}

impl Dots {
    fn other(&mut self, class: String) {
        *self.others.get_mut(&class).unwrap_or_else(|| panic!("the class {class:?} is not in the list")) += 1;
    }

    /// A refused sequence, from its second byte on.
    pub fn refused(&mut self, number: u8, parameter: u8, sequence: &[u8], room: usize, before: &Before) {
        let classes = &mut self.classes;
        let three = before.mode() == 3;
        let dots = before.any_dots;
        classes.count_if(dots && sequence[0] == 208 && number == 11, "refused 208 keeps dots");
        if number == 13 && three {
            let printed = before.printed > 0;
            classes.count_if(!printed && room == 3839, "13 with room 3839");
            classes.count_if(printed && room == 7679, "13 with room 7679");
            classes.count_if((656..3840).contains(&room), "13 with room for a copy of text");
        }
        let second = sequence[0];
        if number == 11 && matches!(second, 198 | 199) {
            classes.count_if(
                dots,
                if second == 198 { "198 refused with dots" } else { "199 refused with dots" },
            );
            self.other(first_bad(second, parameter));
            if bad_after(second, parameter, &sequence[1..]) {
                self.other(first_bad(second, parameter) + ", a later one bad too");
            }
        }
    }

    pub fn item(&mut self, item: &Item, length: usize, room: usize, before: &Before, after: &Standing) {
        let three = before.mode() == 3;
        match *item {
            Item::Sequence { second, parameters } if idle(second, &before.settings) => {
                self.idle(second, parameters, length, before);
            }
            Item::Sequence { second: 208, parameters } => self.mode_setting(parameters, before),
            Item::Sequence { second: 198, parameters } if three => self.line(parameters, before, after),
            Item::Sequence { second: 199, parameters } if three => self.point(parameters, before),
            Item::Sequence { second: second @ (198 | 199), parameters } => self.nothing(second, parameters),
            Item::Sequence { second: 80, .. } if three => self.copy(room, before),
            Item::Sequence { second, .. } => self.sequence(second, before, after),
            Item::Printed(_) => self.printing(before, after),
            Item::Code(code) => self.code(code, before),
            Item::Refusal { .. } => {}
        }
    }

    fn idle(&mut self, second: u8, parameters: &[u8], length: usize, before: &Before) {
        self.other(format!("idle in mode 3: {second}"));
        self.classes.count_if(before.marks > 0, "idle with marks");
        self.classes.count_if(before.place.waiting == 1, "idle by rule 2 with the flag");
        self.classes.count_if(second == 209 && length == 2, "209 at the very end, idle");
        let bad = match (second, parameters.first()) {
            (148, Some(&step)) => !(1..=8).contains(&step),
            (214, Some(&kind)) => kind > 3,
            (_, Some(&flag)) => flag > 1,
            _ => false,
        };
        if bad {
            self.other(format!("idle in mode 3: {second}, out of its range elsewhere"));
        }
    }

    fn mode_setting(&mut self, parameters: &[u8], before: &Before) {
        let (classes, given) = (&mut self.classes, &before.settings);
        const CLEARED: [&str; 4] = [
            "dots cleared by 208 to mode 0",
            "dots cleared by 208 to mode 1",
            "dots cleared by 208 to mode 2",
            "dots cleared by 208 to mode 3",
        ];
        classes.count_if(before.any_dots, CLEARED[usize::from(parameters[0])]);
        classes.count_if(given.mode == 3 && parameters[0] != 3, "type 3 outlives mode 3");
        if parameters[0] == 3 {
            classes.count_if(given.kind != 3, "208 to mode 3 from another type");
            classes.count_if(given.display == 0, "208 to mode 3 with the key line");
            classes.count_if(given.rule == 2, "208 to mode 3 by rule 2");
            classes.count_if(given.selected == 1, "208 to mode 3 from screen 2");
            classes.count_if(given.boundary != 32, "208 to mode 3 with the boundary kept");
        }
    }

    fn point(&mut self, p: &[u8], before: &Before) {
        let classes = &mut self.classes;
        let on = before.is_on(Dot { horizontal: number(p, 2), vertical: p[1].into() });
        classes.count(match (p[0], on) {
            (1, false) => "199 sets a dot",
            (1, true) => "199 sets a dot that is set",
            (_, true) => "199 clears a dot",
            (_, false) => "199 clears a dot that is not set",
        });
        classes.count_if(p[1..] == [0, 0, 0], "199 at the first dot");
        classes.count_if(p[1..] == [63, 1, 223], "199 at the last dot");
        classes.count_if(before.settings.secret == 1, "dots changed under secret");
    }

    fn line(&mut self, p: &[u8], before: &Before, after: &Standing) {
        let classes = &mut self.classes;
        classes.count(["198 off", "198 on", "198 inverts"][usize::from(p[10]) - 1]);
        let start = Dot { horizontal: number(p, 0), vertical: number(p, 2) };
        let end = Dot { horizontal: number(p, 4), vertical: number(p, 6) };
        classes.count_if(line(start, end).any(|dot| before.is_on(dot)), "198 over dots that are set");
        let across = start.horizontal.abs_diff(end.horizontal);
        let along = start.vertical.abs_diff(end.vertical);
        let (n, d) = (across.max(along), across.min(along));
        let changed = before.is_on(start) != is_on(after.dots, start);
        classes.count_if(n == 0, "line of one dot");
        classes.count_if(n == 0 && !changed && p[8] < 128, "line of one dot that does not act");
        classes.count_if(d == 0 && across > 0, "line lying");
        classes.count_if(d == 0 && along > 0, "line standing");
        classes.count_if((1..n).any(|k| (2 * k * d + n) % (2 * n) == 0), "line whose offset stands half way");
        classes.count_if(n > 16, "line of more than 16 dots");
        classes.count_if(n == 479, "line of 480 dots");
        classes.count_if(along == 63 && across < 63, "line of 64 dots standing");
        classes.count_if(before.settings.secret == 1, "dots changed under secret");
        self.direction(start, end, across, along);
        self.mask([p[8], p[9]], n);
    }

    fn direction(&mut self, start: Dot, end: Dot, across: usize, along: usize) {
        if across == 0 || along == 0 {
            return;
        }
        const EQUAL: [&str; 4] = [
            "equal distances, right and down",
            "equal distances, right and up",
            "equal distances, left and down",
            "equal distances, left and up",
        ];
        const LYING: [&str; 4] = [
            "line right and down, lying",
            "line right and up, lying",
            "line left and down, lying",
            "line left and up, lying",
        ];
        const STANDING: [&str; 4] = [
            "line right and down, standing",
            "line right and up, standing",
            "line left and down, standing",
            "line left and up, standing",
        ];
        let left = usize::from(end.horizontal < start.horizontal);
        let up = usize::from(end.vertical < start.vertical);
        let names = match across.cmp(&along) {
            std::cmp::Ordering::Equal => EQUAL,
            std::cmp::Ordering::Greater => LYING,
            std::cmp::Ordering::Less => STANDING,
        };
        self.classes.count(names[2 * left + up]);
    }

    fn mask(&mut self, mask: [u8; 2], n: usize) {
        let classes = &mut self.classes;
        classes.count_if(mask == [255, 255], "mask of all");
        classes.count_if(mask == [0, 0], "mask of none");
        classes.count_if(mask[0] == 0 && mask[1] != 0 && n > 8, "mask in its second byte alone");
        let some = mask != [0, 0] && mask != [255, 255];
        classes.count_if(some && n > 16, "mask with a dot left out of the first 16");
    }

    /// 198 and 199 in modes 0 to 2.
    fn nothing(&mut self, second: u8, p: &[u8]) {
        let (nothing, not_judged) = match second {
            198 => ("198 does nothing", "198 not judged"),
            _ => ("199 does nothing", "199 not judged"),
        };
        self.classes.count(nothing);
        self.classes.count_if(bad_after(second, 0, p), not_judged);
    }

    fn copy(&mut self, room: usize, before: &Before) {
        let classes = &mut self.classes;
        classes.count("copy of dots");
        classes.count_if(before.settings.secret == 1, "copy of dots under secret");
        classes.count_if(before.printed > 0, "second copy of dots");
        classes.count_if(room == 3840, "copy with room 3840");
        classes.count_if(room == 7680 && before.printed > 0, "two copies with room 7680");
    }

    fn sequence(&mut self, second: u8, before: &Before, after: &Standing) {
        let classes = &mut self.classes;
        if before.mode() != 3 {
            const KEPT: [&str; 3] =
                ["42 in mode 0 keeps dots", "42 in mode 1 keeps dots", "42 in mode 2 keeps dots"];
            return classes.count_if(second == 42 && before.any_dots, KEPT[before.mode()]);
        }
        let class = match second {
            37 => return self.printing(before, after),
            42 => "42 clears dots",
            84 => "84 keeps dots",
            89 => "89 keeps dots",
            144 => "144 keeps dots",
            145 => "145 keeps dots",
            61 => return classes.count("61 in mode 3"),
            210 => return classes.count("210 in mode 3"),
            224 => return classes.count("224 in mode 3"),
            _ => return,
        };
        classes.count_if(before.any_dots, class);
    }

    fn printing(&mut self, before: &Before, after: &Standing) {
        if before.mode() != 3 {
            return;
        }
        let lift = before.leaves_its_line() && before.in_last_line();
        self.classes.count_if(lift && before.any_dots, "lift by printing keeps dots");
        let marks = super::before::filled(&after.layer[..640]);
        self.classes.count_if(!lift && marks < before.marks, "text in mode 3 clears a mark");
    }

    fn code(&mut self, code: u8, before: &Before) {
        let three = before.mode() == 3;
        let class = match code {
            12 if three => "code 12 clears dots",
            12 => "code 12 keeps dots",
            10 if three && before.in_last_line() => "lift by code 10 keeps dots",
            _ => return,
        };
        self.classes.count_if(before.any_dots, class);
    }

    /// 198 that waited and was finished in mode 3.
    pub fn finished(&mut self) {
        self.classes.count("pattern of 198 over a cut");
    }

    pub fn lines(&self) -> Vec<(String, u64)> {
        let mut lines = self.classes.lines();
        lines.extend(self.others.iter().map(|(name, &count)| (name.clone(), count)));
        lines
    }
}

/// Whether a parameter behind this one is bad, by the ranges of mode 3.
fn bad_after(second: u8, parameter: u8, p: &[u8]) -> bool {
    let bad = match second {
        198 => vec![
            (2, number(p, 0) > 479),
            (4, number(p, 2) > 63),
            (6, number(p, 4) > 479),
            (8, number(p, 6) > 63),
            (11, !(1..=3).contains(&p[10])),
        ],
        _ => vec![(1, p[0] > 1), (2, p[1] > 63), (4, number(p, 2) > 479)],
    };
    bad.iter().any(|&(at, bad)| bad && at > parameter)
}
