//! Comparison of two implementations of document 02's P13 on named and random
//! traces. An implementation is anything behind `Repeats`.
//!
//! - `write`: records, and the request's own examples
//! - `generate`: random traces
//! - `reached`: the classes that they reach

pub mod generate;
pub mod reached;
pub mod write;

use crate::classes::Classes;
use crate::play::Plan;
use crate::random::Random;
pub use broken::traces::Functions;
use reference::Settings;

/// An implementation of the call on plain slices.
pub trait Repeats {
    fn name(&self) -> &str;

    /// The call's number, and how many codes it wrote.
    fn key_repeats(&mut self, settings: Settings, trace: &[u8], output: &mut [u8]) -> (u8, usize);
}

pub const REFERENCE: Functions =
    Functions { name: "reference", key_repeats: reference::repeats::key_repeats };

pub const TUNED: Functions = Functions {
    name: "tuned",
    key_repeats: |settings, trace, output| tuned::repeats::key_repeats(&settings, trace, output),
};

impl Repeats for Functions {
    fn name(&self) -> &str {
        self.name
    }

    fn key_repeats(&mut self, settings: Settings, trace: &[u8], output: &mut [u8]) -> (u8, usize) {
        (self.key_repeats)(settings, trace, output)
    }
}

/// A call: the settings, the trace, and the output as it stands before.
pub struct Call {
    pub settings: Settings,
    pub trace: Vec<u8>,
    pub output: Vec<u8>,
}

/// The named traces on both sides: how many there are, or the first
/// difference between the sides.
pub fn examples(
    left: &mut dyn Repeats,
    right: &mut dyn Repeats,
    classes: &mut Classes,
) -> Result<u64, String> {
    let calls = write::named();
    for (at, call) in calls.iter().enumerate() {
        both(left, right, call, classes).map_err(|what| format!("named trace {}: {what}", at + 1))?;
    }
    Ok(calls.len() as u64)
}

/// The same of random traces.
pub fn run(
    left: &mut dyn Repeats,
    right: &mut dyn Repeats,
    classes: &mut Classes,
    plan: &Plan,
) -> Result<u64, String> {
    for list in plan.list..plan.list + plan.calls {
        let call = generate::call(&mut Random::of_list(plan.seed, list));
        both(left, right, &call, classes)
            .map_err(|what| format!("{what}\nagain: --seed {} --list {list} --calls 1", plan.seed))?;
    }
    Ok(plan.calls)
}

/// Classes of a run, all at 0.
pub fn classes() -> Classes {
    Classes::new(reached::CLASSES)
}

fn both(
    left: &mut dyn Repeats,
    right: &mut dyn Repeats,
    call: &Call,
    classes: &mut Classes,
) -> Result<(), String> {
    let Call { settings, trace, output } = call;
    let mut outputs = [output.clone(), output.clone()];
    let [one, other] = &mut outputs;
    let answer = left.key_repeats(*settings, trace, one);
    let again = right.key_repeats(*settings, trace, other);
    if answer != again {
        return Err(format!("answer: {answer:?} and {again:?}, an output of {}", output.len()));
    }
    if let Some(at) = (0..output.len()).find(|&at| outputs[0][at] != outputs[1][at]) {
        return Err(format!("output byte {at}: {} and {}", outputs[0][at], outputs[1][at]));
    }
    reached::reached(call, answer.0, classes);
    Ok(())
}
