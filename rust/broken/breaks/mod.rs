//! Deliberately broken copies of the reference. Each is the reference's own
//! text with one passage replaced; the build writes the copies, and fails
//! if a passage does not stand exactly once in its file.
//!
//! - `scope`: document 01
//! - `parameters`: which parameter a refusal names
//! - `streams`: pieces and closings
//! - `keyline`: the key line and its texts
//! - `lines`: lines that run on
//! - `late`: the late wrap
//! - `dots`: mode 3
//! - `packs`: packs of messages
//! - `secrecy`: what is seen in secret mode
//! - `short`: short messages
//! - `screens`: the comparison of two screens
//! - `traces`: key repeats
//! - `writes`: the sequences written

mod dots;
mod keyline;
mod late;
mod lines;
mod packs;
mod parameters;
mod scope;
mod screens;
mod secrecy;
mod short;
mod streams;
mod traces;
mod writes;

pub struct Break {
    pub name: &'static str,
    /// file of the reference's sources
    pub file: &'static str,
    pub old: &'static str,
    pub new: &'static str,
}

const fn entry(name: &'static str, file: &'static str, old: &'static str, new: &'static str) -> Break {
    Break { name, file, old, new }
}

/// The broken copies of the terminal.
pub const BREAKS: &[&[Break]] = &[
    scope::BREAKS,
    parameters::BREAKS,
    streams::BREAKS,
    keyline::BREAKS,
    lines::BREAKS,
    late::BREAKS,
    dots::BREAKS,
    packs::BREAKS,
    secrecy::BREAKS,
    short::BREAKS,
];

/// The broken copies of the comparison of two screens.
pub const SCREENS: &[&[Break]] = &[screens::BREAKS];

/// The broken copies of the key repeats.
pub const TRACES: &[&[Break]] = &[traces::BREAKS];

/// The broken copies of the writer.
pub const WRITES: &[&[Break]] = &[writes::BREAKS];
