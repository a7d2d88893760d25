//! What document 02 says of a short message is asked of each by itself: a broken copy
//! that breaks a sentence is found though the other side is broken in the same way.

use compare::play::{run, Plan};
use compare::{Functions, BROKEN};

fn broken(name: &str) -> Functions {
    *BROKEN.iter().find(|broken| broken.name == name).expect("a broken copy of this name")
}

/// What the copy played against itself is told of, if anything.
fn told(name: &str) -> Option<String> {
    let plan = Plan { seed: 1, calls: 60_000, list: 0, progress: 0 };
    run(&mut broken(name), &mut broken(name), None, &plan).err().map(|difference| difference.what)
}

/// Every copy of these names is told of by one of the sentences.
fn find(sentences: &[&str], names: &[&str]) {
    for name in names {
        let what = told(name).unwrap_or_default();
        assert!(sentences.iter().any(|sentence| what.contains(sentence)), "{name}: {what:?}");
    }
}

/// "each place holds the new picture, or is unaltered and had the same picture before
/// and after"; "from a screen true in rows 1 to 7 it ends as the old call does", which
/// is told first where the screen was true.
#[test]
fn each_place() {
    let names = [
        "printed-place-not-painted",
        "lift-by-the-late-step-forgotten",
        "lift-behind-the-last-place-forgotten",
        "tops-judged-net",
        "84-paints-little",
        "208-paints-little",
        "210-paints-little",
        "painted-without-the-layer",
    ];
    find(&["neither the new picture nor unaltered", "does not end as the old call"], &names);
}

/// "Row 8 it always paints whole."
#[test]
fn row_8() {
    find(&["of row 8 is not painted"], &["row-8-painted-under-display-0-alone", "row-8-a-place-short"]);
}

/// "alters in rows 1 to 7 only places of cells it prints"
#[test]
fn printed_places_alone() {
    let names = [
        "whole-line-repainted",
        "place-before-the-late-step-too",
        "all-640-painted",
        "every-step-paints-all",
    ];
    find(&["altered and nothing was printed there"], &names);
}

/// "a call that is the old one but paints less"
#[test]
fn the_old_call() {
    let names =
        ["short-message-takes-nothing", "short-message-leaves-the-settings", "short-message-without-printer"];
    find(&["not the old call's answer"], &names);
}

/// What is said of a place leaves a call free to paint more or less than the definition
/// says: these keep every sentence, and only the comparison of two sides finds them.
#[test]
fn what_the_sentences_leave_open() {
    for name in ["61-paints-all", "a-refusal-paints-all", "idle-sequences-paint-little"] {
        assert_eq!(told(name), None, "{name}");
    }
}
