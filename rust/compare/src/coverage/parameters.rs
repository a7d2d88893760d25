//! Which parameters were the first bad ones of a sequence refused by 11.

use super::JUDGED;
use crate::generate::sequences::ranges;
use reference::Settings;
use std::collections::BTreeMap;

/// No byte is good: of these a refused one is bad.
const NONE: (usize, usize) = (256, 256);
/// Every byte is good.
const ANY: (usize, usize) = (0, 255);

const LATER_11: &str = "first refusal 11, a later one names another parameter";
const ANOTHER_FIRST: &str = "first refusal not 11, a later one names a parameter";

#[derive(Default)]
pub struct Parameters(BTreeMap<String, u64>);

impl Parameters {
    /// Every class at 0: each judged parameter as the first bad one, before
    /// a later bad one where there is one, and the sums.
    pub fn new() -> Parameters {
        let mut classes = Parameters(BTreeMap::new());
        for &second in JUDGED.iter().filter(|&&second| second != 208) {
            classes.expect(&second.to_string(), &own_ranges(&[second], 8, 24, 80));
        }
        classes.expect("208 mode 4 and above", &[NONE]);
        for mode in 0..=2 {
            classes.expect(&format!("208 mode {mode}"), &own_ranges(&[208, mode], 8, 24, 80));
        }
        for name in ["144", "145", "208 mode 0"] {
            classes.0.insert(format!("first bad: {name}, by the sum alone"), 0);
        }
        for name in [LATER_11, ANOTHER_FIRST] {
            classes.0.insert(name.to_string(), 0);
        }
        classes
    }

    fn expect(&mut self, name: &str, ranges: &[(usize, usize)]) {
        let judged = ranges.iter().enumerate().filter(|(_, &range)| range != ANY);
        let judged: Vec<usize> = judged.map(|(at, _)| at + 1).collect();
        for &parameter in &judged {
            self.0.insert(format!("first bad: {name}, parameter {parameter}"), 0);
            if Some(&parameter) != judged.last() {
                self.0.insert(format!("first bad: {name}, parameter {parameter}, a later one bad too"), 0);
            }
        }
    }

    fn count(&mut self, class: String) {
        *self.0.get_mut(&class).unwrap_or_else(|| panic!("the class {class:?} is not in the list")) += 1;
    }

    /// A sequence from its second byte on, refused by 11 for `parameter`.
    pub fn refused(&mut self, parameter: u8, sequence: &[u8], s: &Settings) {
        let screen = usize::from(s.selected);
        let ranges = own_ranges(sequence, s.height(), s.lines(screen), s.columns(screen));
        let name = match *sequence {
            [208, mode @ 0..=2, ..] => format!("208 mode {mode}"),
            [208, ..] => "208 mode 4 and above".to_string(),
            _ => sequence[0].to_string(),
        };
        let outside = |&(range, &byte): &(&(usize, usize), &u8)| !(range.0..=range.1).contains(&byte.into());
        let bad = ranges.iter().zip(&sequence[1..]).filter(outside).count();
        self.count(format!("first bad: {name}, parameter {parameter}"));
        match bad {
            0 => self.count(format!("first bad: {name}, by the sum alone")),
            1 => {}
            _ => self.count(format!("first bad: {name}, parameter {parameter}, a later one bad too")),
        }
    }

    /// Number and parameter of every refusal of a call, in order.
    pub fn several(&mut self, refusals: &[(u8, u8)]) {
        let Some(&(number, parameter)) = refusals.first() else { return };
        let later = |wanted: &dyn Fn(u8) -> bool| refusals[1..].iter().any(|&(_, other)| wanted(other));
        if number == 11 && later(&|other| other != 0 && other != parameter) {
            self.count(LATER_11.to_string());
        }
        if number != 11 && later(&|other| other != 0) {
            self.count(ANOTHER_FIRST.to_string());
        }
    }

    pub fn lines(&self) -> impl Iterator<Item = (String, u64)> + '_ {
        self.0.iter().map(|(name, &count)| (name.clone(), count))
    }
}

/// The range of each parameter by itself, without the sums; of 67 and 247,
/// which take single values, the one parameter is taken for bad.
fn own_ranges(sequence: &[u8], height: usize, lines: usize, columns: usize) -> Vec<(usize, usize)> {
    match *sequence {
        [67 | 247, ..] => vec![NONE],
        [208, 0, ..] => vec![ANY, (8, 255), (8, 255)],
        [208, 1, ..] => vec![ANY, (16, 48)],
        [208, 2, ..] => vec![ANY, (8, 48), (1, 78), ANY],
        [208, ..] => vec![NONE],
        _ => ranges(sequence[0], height, lines, columns),
    }
}
