//! Comparison of two implementations of document 02's P7 on named and random
//! sequences, written one behind another. An implementation is anything behind
//! `Writes`; what was written is read back by a terminal's message call.
//!
//! - `named`: the request's own examples
//! - `generate`: random sequences, in their ranges or not, whole or not
//! - `back`: what was written, read back
//! - `reached`: the classes that they reach

pub mod back;
pub mod generate;
pub mod named;
pub mod reached;

use crate::classes::Classes;
use crate::play::Plan;
use crate::random::Random;
use crate::Terminal;
pub use broken::writes::{Functions, Reached};
use reference::Settings;

/// An implementation of the call on plain slices.
pub trait Writes {
    fn name(&self) -> &str;

    /// The place afterwards, the number, and the bad parameter.
    fn write(
        &mut self,
        settings: Settings,
        second: u8,
        parameters: &[u8],
        buffer: &mut [u8],
        place: usize,
    ) -> Reached;
}

pub const REFERENCE: Functions = Functions { name: "reference", write: reference::write::write };

pub const TUNED: Functions = Functions {
    name: "tuned",
    write: |settings, second, parameters, buffer, place| {
        tuned::writes::write(&settings, second, parameters, buffer, place)
    },
};

impl Writes for Functions {
    fn name(&self) -> &str {
        self.name
    }

    fn write(
        &mut self,
        settings: Settings,
        second: u8,
        parameters: &[u8],
        buffer: &mut [u8],
        place: usize,
    ) -> Reached {
        (self.write)(settings, second, parameters, buffer, place)
    }
}

/// A second byte and its parameters.
pub type Sequence = (u8, Vec<u8>);

/// Sequences that a writer is handed one after the other, its buffer as it stands
/// before, and its place.
pub struct List {
    pub settings: Settings,
    pub sequences: Vec<Sequence>,
    pub buffer: Vec<u8>,
    pub place: usize,
}

/// The named lists on both sides, read back: how many there are, or the first
/// difference.
pub fn examples(
    left: &mut dyn Writes,
    right: &mut dyn Writes,
    reader: &mut dyn Terminal,
    classes: &mut Classes,
) -> Result<u64, String> {
    let lists = named::named();
    for (at, list) in lists.iter().enumerate() {
        let mut random = Random::of_list(0, at as u64);
        both(left, right, reader, list, &mut random, classes)
            .map_err(|what| format!("named list {}: {what}", at + 1))?;
    }
    Ok(lists.len() as u64)
}

/// The same of random lists.
pub fn run(
    left: &mut dyn Writes,
    right: &mut dyn Writes,
    reader: &mut dyn Terminal,
    classes: &mut Classes,
    plan: &Plan,
) -> Result<u64, String> {
    for list in plan.list..plan.list + plan.calls {
        let mut random = Random::of_list(plan.seed, list);
        let made = generate::list(&mut random);
        both(left, right, reader, &made, &mut random, classes)
            .map_err(|what| format!("{what}\nagain: --seed {} --list {list} --calls 1", plan.seed))?;
    }
    Ok(plan.calls)
}

/// Classes of a run, all at 0.
pub fn classes() -> Classes {
    let written = reached::WRITTEN.iter().map(|&(_, name)| name);
    Classes::new(&written.chain(reached::CLASSES.iter().copied()).collect::<Vec<_>>())
}

fn both(
    left: &mut dyn Writes,
    right: &mut dyn Writes,
    reader: &mut dyn Terminal,
    list: &List,
    random: &mut Random,
    classes: &mut Classes,
) -> Result<(), String> {
    let mut buffers = [list.buffer.clone(), list.buffer.clone()];
    let mut place = list.place;
    let mut answers = Vec::new();
    for (second, parameters) in &list.sequences {
        let [one, other] = &mut buffers;
        let answer = left.write(list.settings, *second, parameters, one, place);
        let again = right.write(list.settings, *second, parameters, other, place);
        let what = || format!("27 {second} {parameters:?} at {place} of {}", list.buffer.len());
        if answer != again {
            return Err(format!("{}: {answer:?} and {again:?}", what()));
        }
        if let Some(at) = (0..list.buffer.len()).find(|&at| buffers[0][at] != buffers[1][at]) {
            return Err(format!("{}, byte {at}: {} and {}", what(), buffers[0][at], buffers[1][at]));
        }
        answers.push((place, answer));
        place = answer.0;
    }
    back::read_back(reader, list, &answers, &buffers[1], random)?;
    reached::reached(list, &answers, classes);
    Ok(())
}
