//! What the archive offers to the linker and what it asks of it, by `nm`.

use std::collections::BTreeSet;
use std::path::PathBuf;
use std::process::Command;

/// What the archive may need of the C library.
const NEEDED_AT_MOST: [&str; 5] = ["memcpy", "memset", "memmove", "memcmp", "bcmp"];

fn archive() -> PathBuf {
    let own = || concat!(env!("CARGO_MANIFEST_DIR"), "/../../target/staticlib").into();
    std::env::var_os("PX8_LIB_DIR").map_or_else(own, PathBuf::from).join("libpx8.a")
}

/// Name and kind of every symbol; an undefined one has the kind U, a global
/// one a capital letter.
fn symbols() -> Vec<(String, char)> {
    let output = Command::new("nm").arg("-P").arg(archive()).output().expect("nm runs");
    assert!(output.status.success(), "{}", String::from_utf8_lossy(&output.stderr));
    let text = String::from_utf8(output.stdout).unwrap();
    let symbol = |line: &str| {
        let mut words = line.split_whitespace();
        // a line of a single word names a member of the archive
        Some((words.next()?.to_string(), words.next()?.chars().next()?))
    };
    text.lines().filter_map(symbol).collect()
}

/// The archive has five objects with much code in common: the calls are all
/// that is global in them, each once, so that none uses another's copy. Their names end
/// with the number of the layout.
#[test]
fn only_the_calls_are_exported() {
    let offered = |kind: char| kind.is_ascii_uppercase() && kind != 'U';
    let mut ours: Vec<_> = symbols().into_iter().filter(|(_, kind)| offered(*kind)).collect();
    ours.sort();
    let expected = [
        "px8_closing",
        "px8_compare",
        "px8_first_difference",
        "px8_key_repeats",
        "px8_key_text",
        "px8_message",
        "px8_message_short",
        "px8_opening",
        "px8_pack",
        "px8_piece",
        "px8_printed",
        "px8_write",
    ];
    let mut expected = expected.map(|name| (format!("{name}_l2"), 'T'));
    expected.sort();
    assert_eq!(ours, expected);
}

#[test]
fn little_is_needed_of_the_c_library() {
    let symbols = symbols();
    let defined: BTreeSet<&str> =
        symbols.iter().filter(|(_, kind)| !"Uwv".contains(*kind)).map(|(name, _)| name.as_str()).collect();
    let needed = symbols.iter().filter(|(_, kind)| "Uwv".contains(*kind)).map(|(name, _)| name.as_str());
    let unexpected: Vec<&str> =
        needed.filter(|name| !defined.contains(name) && !NEEDED_AT_MOST.contains(name)).collect();
    assert!(unexpected.is_empty(), "undefined: {unexpected:?}");
}

/// Written data would be state kept from call to call.
#[test]
fn no_data_is_kept() {
    let written = |kind: &char| "bBdDCgGsS".contains(*kind);
    let kept: Vec<_> = symbols().into_iter().filter(|(_, kind)| written(kind)).collect();
    assert!(kept.is_empty(), "written data: {kept:?}");
}
