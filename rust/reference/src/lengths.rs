//! The words of the program `lengths`: document 01's list of lengths, so that
//! a fitter can check it with a pencil.

use super::read::length;
use std::fmt::Write;

/// "a program prints, a line each, the list's length for second bytes 0 to
/// 255 (0 for 208 and where it has none), then 208's for mode bytes 0 to 255"
pub fn lengths() -> String {
    let mut text = String::new();
    for second in 0..=255 {
        let listed = if second == 208 { None } else { length(second, None) };
        writeln!(text, "{}", listed.unwrap_or(0)).unwrap();
    }
    for mode in 0..=255 {
        writeln!(text, "{}", length(208, Some(mode)).unwrap_or(0)).unwrap();
    }
    text
}
