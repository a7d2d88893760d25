//! Comparison of two implementations of document 02's P4 on named and random
//! pairs of screens. An implementation is anything behind `Screens`.

pub mod pairs;

use self::pairs::{named, random_pair, Pair, CLASSES};
use crate::classes::Classes;
use crate::play::Plan;
use crate::random::Random;
pub use broken::screens::Functions;
use reference::differences::Record;

/// An implementation of the two calls on plain slices.
pub trait Screens {
    fn name(&self) -> &str;

    /// The call's number, and how many records it wrote.
    fn compare(&mut self, first: &[u8], second: &[u8], list: &mut [Record]) -> (u8, usize);

    /// The call's number, and the first difference.
    fn first_difference(&mut self, first: &[u8], second: &[u8]) -> (u8, Option<Record>);
}

pub const REFERENCE: Functions = Functions {
    name: "reference",
    compare: reference::differences::compare,
    first_difference: reference::differences::first_difference,
};

pub const TUNED: Functions = Functions {
    name: "tuned",
    compare: tuned::screens::compare,
    first_difference: tuned::screens::first_difference,
};

impl Screens for Functions {
    fn name(&self) -> &str {
        self.name
    }

    fn compare(&mut self, first: &[u8], second: &[u8], list: &mut [Record]) -> (u8, usize) {
        (self.compare)(first, second, list)
    }

    fn first_difference(&mut self, first: &[u8], second: &[u8]) -> (u8, Option<Record>) {
        (self.first_difference)(first, second)
    }
}

/// The named pairs on both sides: how many there are, or the first difference
/// between the sides.
pub fn examples(
    left: &mut dyn Screens,
    right: &mut dyn Screens,
    classes: &mut Classes,
) -> Result<u64, String> {
    let pairs = named();
    for (at, pair) in pairs.iter().enumerate() {
        both(left, right, pair, classes).map_err(|what| format!("named pair {}: {what}", at + 1))?;
    }
    Ok(pairs.len() as u64)
}

/// The same of random pairs.
pub fn run(
    left: &mut dyn Screens,
    right: &mut dyn Screens,
    classes: &mut Classes,
    plan: &Plan,
) -> Result<u64, String> {
    for list in plan.list..plan.list + plan.calls {
        let pair = random_pair(&mut Random::of_list(plan.seed, list));
        both(left, right, &pair, classes)
            .map_err(|what| format!("{what}\nagain: --seed {} --list {list} --calls 1", plan.seed))?;
    }
    Ok(plan.calls)
}

/// Classes of a run, all at 0.
pub fn classes() -> Classes {
    Classes::new(CLASSES)
}

fn both(
    left: &mut dyn Screens,
    right: &mut dyn Screens,
    pair: &Pair,
    classes: &mut Classes,
) -> Result<(), String> {
    let Pair { first, second, list } = pair;
    let mut lists = [list.clone(), list.clone()];
    let [one, other] = &mut lists;
    let answer = left.compare(first, second, one);
    let again = right.compare(first, second, other);
    if answer != again {
        return Err(format!("compare: {answer:?} and {again:?}, a list of {}", list.len()));
    }
    if let Some(at) = (0..list.len()).find(|&at| lists[0][at] != lists[1][at]) {
        return Err(format!("record {}: {:?} and {:?}", at + 1, lists[0][at], lists[1][at]));
    }
    let found = left.first_difference(first, second);
    let again = right.first_difference(first, second);
    if found != again {
        return Err(format!("first difference: {found:?} and {again:?}"));
    }
    pairs::reached(pair, answer, classes);
    Ok(())
}
