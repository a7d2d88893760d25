//! Writes the broken copies of the reference: one module for each entry of
//! `breaks`. Copied is the changed file and what is built on it; the
//! rest, and the plain types, are the reference's own.

#[path = "breaks/mod.rs"]
mod breaks;

use breaks::{Break, BREAKS, SCREENS, TRACES, WRITES};
use std::fmt::Write;
use std::path::{Path, PathBuf};

/// A part of the reference, and its calls.
struct Part {
    name: &'static str,
    breaks: &'static [&'static [Break]],
    /// the list of its broken copies
    list: &'static str,
    /// from below: each is built on some of those before it
    files: &'static [&'static str],
    /// the calls, each by its file
    calls: &'static [(&'static str, &'static str)],
}

const PARTS: [Part; 4] = [
    Part {
        name: "terminal",
        breaks: BREAKS,
        list: "BROKEN: &[Functions]",
        files: &[
            "settings", "dots", "picture", "read", "stream", "sound", "apply", "calls", "records", "pack",
            "short",
        ],
        calls: &[
            ("calls", "opening"),
            ("calls", "message"),
            ("short", "message_short"),
            ("calls", "piece"),
            ("calls", "closing"),
            ("calls", "key_text"),
            ("calls", "printed"),
            ("pack", "pack"),
        ],
    },
    Part {
        name: "screens",
        breaks: SCREENS,
        list: "BROKEN_SCREENS: &[screens::Functions]",
        files: &["settings", "differences"],
        calls: &[("differences", "compare"), ("differences", "first_difference")],
    },
    Part {
        name: "traces",
        breaks: TRACES,
        list: "BROKEN_TRACES: &[traces::Functions]",
        files: &["settings", "sound", "records", "repeats"],
        calls: &[("repeats", "key_repeats")],
    },
    Part {
        name: "writes",
        breaks: WRITES,
        list: "BROKEN_WRITES: &[writes::Functions]",
        files: &["settings", "dots", "picture", "read", "stream", "sound", "write"],
        calls: &[("write", "write")],
    },
];

fn main() {
    let here = PathBuf::from(std::env::var("CARGO_MANIFEST_DIR").unwrap());
    let sources = here.join("../reference/src");
    println!("cargo:rerun-if-changed=breaks");
    println!("cargo:rerun-if-changed={}", sources.display());
    println!("cargo:rerun-if-env-changed=BROKEN_COPIES");
    // for clippy and rustdoc, which look at the reference where it stands, the lists are empty
    let empty = std::env::var("BROKEN_COPIES").is_ok_and(|which| which == "none");
    let text: String = PARTS.iter().map(|part| copies(part, &sources, empty)).collect();
    let target = PathBuf::from(std::env::var("OUT_DIR").unwrap());
    std::fs::write(target.join("broken.rs"), text).unwrap();
}

/// A module for each broken copy of a part, and the list of them.
fn copies(part: &Part, sources: &Path, empty: bool) -> String {
    let mut text = String::new();
    let mut list = format!("pub const {} = &[\n", part.list);
    let kind = part.list.split_once("&[").unwrap().1.trim_end_matches(']');
    let breaks: &[&[Break]] = if empty { &[] } else { part.breaks };
    for (number, change) in breaks.iter().copied().flatten().enumerate() {
        let module = format!("{}_{number}", part.name);
        text += &copy(&module, part, change, sources);
        let calls = part.calls.iter().map(|(file, call)| format!("{call}: {module}::{file}::{call}"));
        let calls = calls.collect::<Vec<_>>().join(", ");
        writeln!(list, "    {kind} {{ name: {:?}, {calls} }},", change.name).unwrap();
    }
    text + &list + "];\n"
}

/// The part's files inside a module, one passage changed.
fn copy(module: &str, part: &Part, change: &Break, sources: &Path) -> String {
    let mut text = format!("#[allow(unused, clippy::all)]\nmod {module} {{\n");
    let mut changed = 0;
    let mut copied: Vec<&str> = Vec::new();
    for file in part.files {
        let name = format!("{file}.rs");
        let mut source = std::fs::read_to_string(sources.join(&name)).unwrap();
        if change.file == name {
            changed += source.matches(change.old).count();
            source = source.replace(change.old, change.new);
        } else if !copied.iter().any(|below| uses(&source, below)) {
            writeln!(text, "pub use reference::{file};").unwrap();
            continue;
        }
        copied.push(file);
        writeln!(text, "pub mod {file} {{\n{source}\n}}").unwrap();
    }
    assert_eq!(changed, 1, "break {}: its passage must stand once in {}", change.name, change.file);
    text + "}\n"
}

/// Whether a file names another, by its items or as a whole.
fn uses(source: &str, below: &str) -> bool {
    [";", "::"].iter().any(|end| source.contains(&format!("super::{below}{end}")))
}
