//! Document 02, P10: what a copy could get wrong of the parameter named.

use super::{entry, Break};

#[rustfmt::skip]
pub const BREAKS: &[Break] = &[
    entry("last-bad-parameter-named", "read.rs",
        "good.iter().position(|&good| !good)?;",
        "good.iter().rposition(|&good| !good)?;"),
    entry("parameters-counted-from-0", "read.rs",
        "Some(at as u8 + 1)",
        "Some(at as u8)"),
    entry("parameters-counted-from-the-second-byte", "read.rs",
        "Some(at as u8 + 1)",
        "Some(at as u8 + 2)"),
    entry("sum-of-144-named-by-the-earlier", "read.rs",
        "named(&[number(0) < lines, (1..=lines).contains(&number(1)) && sum])",
        "let m = (1..=lines).contains(&number(1));
            named(&[number(0) < lines && (sum || !m), m])"),
    entry("sum-of-208-named-by-the-earlier", "read.rs",
        "named(&[true, number(1) >= 8, number(2) >= 8 && total])",
        "named(&[true, number(1) >= 8 && (total || number(2) < 8), number(2) >= 8])"),
    entry("sum-of-208-judged-as-limits-of-40", "read.rs",
        "named(&[true, number(1) >= 8, number(2) >= 8 && total])",
        "named(&[true, (8..=40).contains(&number(1)), number(2) >= 8 && total])"),
    entry("mode-byte-not-counted", "read.rs",
        "1 => named(&[true, (16..=48).contains(&number(1))]),",
        "1 => named(&[(16..=48).contains(&number(1))]),"),
    entry("parameter-of-the-last-refusal", "calls.rs",
        "answer.refused += 1;",
        "answer.refused += 1;
            answer.parameter = parameter;"),
    entry("parameter-of-the-first-11", "calls.rs",
        "answer.refused += 1;",
        "answer.refused += 1;
            if answer.parameter == 0 {
                answer.parameter = parameter;
            }"),
];
