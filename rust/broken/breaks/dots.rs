//! Document 02, P11: what a copy could get wrong of mode 3. To take the vertical
//! distance for the longer one where both are equal is none of it: dot k then lies k
//! along both.

use super::{entry, Break};

#[rustfmt::skip]
pub const BREAKS: &[Break] = &[
    // a dot
    entry("199-with-1-clears", "dots.rs", "if p[0] == 1 {", "if p[0] == 0 {"),
    entry("199-inverts", "dots.rs",
        "if p[0] == 1 { Function::On }",
        "if p[0] == 1 { Function::Invert }"),
    entry("199-takes-the-horizontal-first", "dots.rs",
        "act(dots, Dot { horizontal: number(p, 2), vertical: usize::from(p[1]) }, function);",
        "let vertical = usize::from(p[3] % 64);
    act(dots, Dot { horizontal: number(p, 1) % 480, vertical }, function);"),
    entry("low-byte-first", "dots.rs",
        "256 * usize::from(p[at]) + usize::from(p[at + 1])",
        "usize::from(p[at]) + 256 * usize::from(p[at + 1])"),
    entry("high-byte-left-out", "dots.rs",
        "256 * usize::from(p[at]) + usize::from(p[at + 1])",
        "usize::from(p[at + 1])"),
    entry("leftmost-dot-in-the-lowest-bit", "dots.rs",
        "128 >> (dot.horizontal % 8)",
        "1 << (dot.horizontal % 8)"),
    entry("columns-of-dots", "dots.rs",
        "let byte = &mut dots[ROW * dot.vertical + dot.horizontal / 8];",
        "let byte = &mut dots[64 * (dot.horizontal / 8) + dot.vertical];"),
    entry("rows-of-64-bytes", "dots.rs", "pub const ROW: usize = 60;", "pub const ROW: usize = 64;"),
    // a line
    entry("rounded-from-the-end", "dots.rs",
        "(2 * k * d + n) / (2 * n)",
        "d - (2 * (n - k) * d + n) / (2 * n)"),
    entry("halves-rounded-down", "dots.rs",
        "(2 * k * d + n) / (2 * n)",
        "(2 * k * d + n - 1) / (2 * n)"),
    entry("offset-not-rounded", "dots.rs", "(2 * k * d + n) / (2 * n)", "k * d / n"),
    entry("rounded-by-the-left-end", "dots.rs",
        "for (k, dot) in line(start, end).enumerate() {",
        "let (start, end) = if start.horizontal <= end.horizontal { (start, end) } else { (end, start) };
    for (k, dot) in line(start, end).enumerate() {"),
    entry("last-dot-left-out", "dots.rs", "(0..=n).map(move |k| {", "(0..n.max(1)).map(move |k| {"),
    entry("one-dot-draws-none", "dots.rs", "(0..=n).map(move |k| {", "(0..n + usize::from(n > 0)).map(move |k| {"),
    entry("axes-exchanged", "dots.rs",
        "let (right, down) = if lying { (k, other) } else { (other, k) };",
        "let (right, down) = if lying != (n < 3) { (k, other) } else { (other, k) };"),
    entry("ends-exchanged", "dots.rs",
        "for (k, dot) in line(start, end).enumerate() {",
        "for (k, dot) in line(end, start).enumerate() {"),
    entry("vertical-before-horizontal", "dots.rs",
        "let start = Dot { horizontal: number(p, 0), vertical: number(p, 2) };",
        "let start = Dot { horizontal: number(p, 2), vertical: number(p, 0) % 64 };"),
    // the mask and the function
    entry("mask-low-bit-first", "dots.rs",
        "mask[bit / 8] & (128 >> (bit % 8)) != 0",
        "mask[bit / 8] & (1 << (bit % 8)) != 0"),
    entry("masks-second-byte-first", "dots.rs", "mask[bit / 8] &", "mask[1 - bit / 8] &"),
    entry("masks-first-byte-alone", "dots.rs", "let bit = k % 16;", "let bit = k % 8;"),
    entry("mask-ends-after-16", "dots.rs", "let bit = k % 16;", "let bit = k.min(15);"),
    entry("mask-counts-acting-dots", "dots.rs",
        "if acts([p[8], p[9]], k) {",
        "if acts([p[8], p[9]], dot.horizontal) {"),
    entry("mask-turned-round", "dots.rs", "if acts([p[8], p[9]], k) {", "if !acts([p[8], p[9]], k) {"),
    entry("masked-dots-cleared", "dots.rs",
        "if acts([p[8], p[9]], k) {
            act(dots, dot, function);
        }",
        "let function = if acts([p[8], p[9]], k) || function != Function::On { function } else { Function::Off };
        if acts([p[8], p[9]], k) || function == Function::Off {
            act(dots, dot, function);
        }"),
    entry("function-1-sets", "dots.rs",
        "1 => Function::Off,
        2 => Function::On,",
        "1 => Function::On,
        2 => Function::Off,"),
    entry("function-3-sets", "dots.rs", "_ => Function::Invert,", "_ => Function::On,"),
    // what is judged
    entry("a-bad-198-draws-in-part", "apply.rs",
        "Item::Refusal { .. } => {}",
        "Item::Refusal { number: 11, parameter: 11 } if self.settings.mode == 3 => self.dots[0] |= 128,
            Item::Refusal { .. } => {}"),
    entry("198-clipped-at-the-border", "read.rs",
        "198 if settings.mode == 3 => first_bad_of_line(parameters),",
        "198 if settings.mode == 3 => first_bad_of_line(parameters).filter(|&parameter| parameter != 6),"),
    entry("high-byte-named", "read.rs",
        "named(&[true, start.0, true, start.1, true, end.0, true, end.1, true, true, function])",
        "named(&[start.0, true, start.1, true, end.0, true, end.1, true, true, true, function])"),
    entry("199s-high-byte-named", "read.rs",
        "named(&[number(0) <= 1, number(1) <= LAST_VERTICAL, true, horizontal])",
        "named(&[number(0) <= 1, number(1) <= LAST_VERTICAL, horizontal])"),
    entry("function-0-taken", "read.rs", "(1..=3).contains(&parameters[10])", "(0..=3).contains(&parameters[10])"),
    entry("function-judged-first", "read.rs",
        "let function = (1..=3).contains(&parameters[10]);",
        "let function = (1..=3).contains(&parameters[10]);
    if !function {
        return Some(11);
    }"),
    entry("horizontal-480-taken", "dots.rs", "LAST_HORIZONTAL: usize = 479;", "LAST_HORIZONTAL: usize = 480;"),
    entry("vertical-64-taken", "dots.rs", "LAST_VERTICAL: usize = 63;", "LAST_VERTICAL: usize = 64;"),
    entry("198-judged-in-every-mode", "read.rs",
        "198 if settings.mode == 3 => first_bad_of_line(parameters),",
        "198 => first_bad_of_line(parameters),"),
    entry("199-judged-in-every-mode", "read.rs", "199 if settings.mode == 3 => {", "199 => {"),
    entry("198-draws-in-every-mode", "apply.rs",
        "198 if self.settings.mode == 3 => dots::draw(self.dots, p),",
        "198 if p[0] == 0 && p[1] < 100 && p[4] == 0 && p[2] == 0 && p[6] == 0 && p[3] < 64 && p[7] < 64 => dots::draw(self.dots, p),
            198 if self.settings.mode == 3 => dots::draw(self.dots, p),"),
    entry("199-sets-in-every-mode", "apply.rs",
        "199 if self.settings.mode == 3 => dots::set(self.dots, p),",
        "199 if self.settings.mode == 3 || p[1] < 64 && p[2] == 0 => dots::set(self.dots, p),"),
    entry("14-given-still", "read.rs",
        "if let Some(parameter) = first_bad(second, parameters, settings) {",
        "if second == 208 && parameters[0] == 3 {
        return refusal(14);
    }
    if let Some(parameter) = first_bad(second, parameters, settings) {"),
    // what is idle
    entry("209-judged-in-mode-3", "read.rs",
        "if idle(second, settings) {
        return None;
    }",
        "if idle(second, settings) && second != 209 {
        return None;
    }"),
    entry("148-judged-in-mode-3", "read.rs",
        "if idle(second, settings) {
        return None;
    }",
        "if idle(second, settings) && second != 148 {
        return None;
    }"),
    entry("149-acts-in-mode-3", "read.rs",
        "148..=151 | 209 | 211..=215)",
        "148 | 150..=151 | 209 | 211..=215)"),
    entry("148-acts-in-mode-3", "read.rs",
        "148..=151 | 209 | 211..=215)",
        "149..=151 | 209 | 211..=215)"),
    entry("211-acts-in-mode-3", "read.rs",
        "148..=151 | 209 | 211..=215)",
        "148..=151 | 209 | 212..=215)"),
    entry("214-acts-in-mode-3", "read.rs",
        "148..=151 | 209 | 211..=215)",
        "148..=151 | 209 | 211..=213 | 215)"),
    entry("210-idle-in-mode-3", "read.rs",
        "148..=151 | 209 | 211..=215)",
        "148..=151 | 209..=215)"),
    entry("61-idle-in-mode-3", "read.rs",
        "148..=151 | 209 | 211..=215)",
        "61 | 148..=151 | 209 | 211..=215)"),
    entry("144-idle-in-mode-3", "read.rs",
        "148..=151 | 209 | 211..=215)",
        "144..=145 | 148..=151 | 209 | 211..=215)"),
    entry("idle-209-empties-the-layer", "apply.rs",
        "if idle(second, &self.settings) {
            return;
        }",
        "if idle(second, &self.settings) {
            if second == 209 {
                self.empty_layer();
            }
            return;
        }"),
    entry("idle-sequences-not-counted", "calls.rs",
        "Item::Sequence { .. } => answer.accepted += 1,",
        "Item::Sequence { second: 213, parameters: [] } => {}
        Item::Sequence { .. } => answer.accepted += 1,"),
    // what clears the dots
    entry("42-keeps-dots-in-mode-3", "apply.rs",
        "if self.settings.mode == 3 {
            self.dots.fill(0);
        }",
        ""),
    entry("42-clears-dots-in-every-mode", "apply.rs",
        "if self.settings.mode == 3 {
            self.dots.fill(0);
        }",
        "self.dots.fill(0);"),
    entry("42-clears-dots-in-mode-0", "apply.rs",
        "if self.settings.mode == 3 {
            self.dots.fill(0);",
        "if self.settings.mode == 3 || self.settings.mode == 0 {
            self.dots.fill(0);"),
    entry("code-12-keeps-dots", "apply.rs",
        "12 => self.clear_screen(),",
        "12 => {
                let before = self.dots.to_vec();
                self.clear_screen();
                self.dots.copy_from_slice(&before);
            }"),
    entry("dots-kept-by-208", "apply.rs",
        "self.dots.fill(0);
        let settings = &mut self.settings;",
        "let settings = &mut self.settings;"),
    entry("dots-cleared-by-208-to-mode-3-alone", "apply.rs",
        "self.dots.fill(0);
        let settings = &mut self.settings;",
        "if p[0] == 3 {
            self.dots.fill(0);
        }
        let settings = &mut self.settings;"),
    entry("dots-kept-by-208-to-mode-3", "apply.rs",
        "self.dots.fill(0);
        let settings = &mut self.settings;",
        "if p[0] != 3 {
            self.dots.fill(0);
        }
        let settings = &mut self.settings;"),
    entry("dots-blanked-by-32", "apply.rs",
        "self.dots.fill(0);
        let settings = &mut self.settings;",
        "self.dots.fill(BLANK);
        let settings = &mut self.settings;"),
    entry("opening-keeps-dots", "calls.rs", "dots.fill(0);", ""),
    entry("lift-moves-dots", "apply.rs",
        "self.move_lines_up(1, self.lines());",
        "self.move_lines_up(1, self.lines());
        if self.settings.mode == 3 {
            self.dots.copy_within(480.., 0);
            self.dots[3360..].fill(0);
        }"),
    entry("144-moves-dots", "apply.rs",
        "if second == 144 {
            self.move_lines_up(a + 1, a + m);",
        "if second == 144 {
            if self.settings.mode == 3 && m == 8 {
                self.dots.copy_within(480.., 0);
            }
            self.move_lines_up(a + 1, a + m);"),
    entry("89-clears-dots", "apply.rs",
        "let last = if second == 89 { self.lines() }",
        "if second == 89 && self.settings.mode == 3 {
            self.dots.fill(0);
        }
        let last = if second == 89 { self.lines() }"),
    entry("printing-clears-dots-below-it", "apply.rs",
        "self.cells[at] = byte;",
        "self.cells[at] = byte;
        if self.settings.mode == 3 {
            self.dots[6 * at] = 0;
        }"),
    entry("42-blanks-all-cells-in-mode-3", "apply.rs",
        "*self.here_mut() = HOME;",
        "*self.here_mut() = HOME;
        if self.settings.mode == 3 {
            self.cells.fill(BLANK);
        }"),
    // 208, 3
    entry("type-not-set", "apply.rs",
        "(settings.kind, settings.display) = (3, 1),",
        "settings.display = 1,"),
    entry("display-not-set", "apply.rs",
        "(settings.kind, settings.display) = (3, 1),",
        "settings.kind = 3,"),
    entry("type-3-ends-with-mode-3", "apply.rs",
        "settings.selected = 0;",
        "settings.selected = 0;
        settings.kind = if p[0] == 3 || settings.kind < 3 { settings.kind } else { 0 };"),
    entry("two-screens-in-mode-3", "apply.rs", "_ => ((8, 0), (80, 0)),", "_ => ((8, 8), (80, 80)),"),
    entry("screen-2-kept-by-mode-3", "apply.rs",
        "_ => ((8, 0), (80, 0)),",
        "_ => ((8, 0), (80, settings.columns2)),"),
    entry("24-lines-in-mode-3", "apply.rs", "_ => ((8, 0), (80, 0)),", "_ => ((24, 0), (80, 0)),"),
    // copies
    entry("13-at-656-in-mode-3", "read.rs",
        "if second == 80 && room < copy_size(settings) {",
        "if second == 80 && room < 656 {"),
    entry("13-at-3840-in-every-mode", "read.rs",
        "if second == 80 && room < copy_size(settings) {",
        "if second == 80 && room < 3840 {"),
    entry("13-at-3841-in-mode-3", "read.rs",
        "if second == 80 && room < copy_size(settings) {",
        "if second == 80 && room < copy_size(settings) + usize::from(settings.mode == 3) {"),
    entry("copy-of-text-in-mode-3", "picture.rs",
        "if settings.mode == 3 {
        return room[..DOTS].copy_from_slice(dots);
    }",
        ""),
    entry("copy-of-dots-hidden-by-secret", "picture.rs",
        "return room[..DOTS].copy_from_slice(dots);",
        "return if settings.secret == 1 { room[..DOTS].fill(0) } else { room[..DOTS].copy_from_slice(dots) };"),
    entry("copy-of-dots-as-codes", "picture.rs",
        "return room[..DOTS].copy_from_slice(dots);",
        "return room[..DOTS].iter_mut().zip(dots).for_each(|(to, &dot)| *to = dot.max(BLANK));"),
    entry("dots-change-only-without-secret", "apply.rs",
        "198 if self.settings.mode == 3 => dots::draw(self.dots, p),",
        "198 if self.settings.secret == 1 => {}
            198 if self.settings.mode == 3 => dots::draw(self.dots, p),"),
    // the picture
    entry("picture-blank-in-mode-3", "picture.rs",
        "0 | 3 => Source::Cell",
        "3 => Source::Blank,
        0 => Source::Cell"),
    entry("layer-not-over-mode-3", "picture.rs",
        "if layer[at] != 0 {",
        "if layer[at] != 0 && settings.mode != 3 {"),
    entry("secret-does-not-hide-text-in-mode-3", "picture.rs",
        "if settings.secret == 1 {",
        "if settings.secret == 1 && settings.mode != 3 {"),
    entry("marks-stay-under-text-in-mode-3", "picture.rs",
        "if line < top || line >= top + settings.height() {",
        "if settings.mode == 3 || line < top || line >= top + settings.height() {"),
    // soundness and sizes
    entry("any-type-sound-in-mode-3", "sound.rs", "s.kind == 3 && s.display", "s.display"),
    entry("key-line-sound-in-mode-3", "sound.rs", "s.display == 1 && s.selected == 0", "s.selected == 0"),
    entry("screen-2-sound-in-mode-3", "sound.rs", "&& s.selected == 0 && s.places", "&& s.places"),
    entry("any-place-of-screen-2-sound-in-mode-3", "sound.rs", "&& s.places[1] == HOME", ""),
    entry("flag-of-screen-2-sound-in-mode-3", "sound.rs",
        "&& s.places[1] == HOME",
        "&& (s.places[1].line, s.places[1].column, s.places[1].top) == (1, 1, 1)"),
    entry("lines-of-screen-2-sound-in-mode-3", "sound.rs",
        "3 => (lines1, lines2) == (8, 0) && columns == (80, 0),",
        "3 => lines1 == 8 && lines2 <= 40 && columns == (80, 0),"),
    entry("columns-of-screen-2-sound-in-mode-3", "sound.rs",
        "3 => (lines1, lines2) == (8, 0) && columns == (80, 0),",
        "3 => (lines1, lines2) == (8, 0) && columns.0 == 80,"),
    entry("more-lines-sound-in-mode-3", "sound.rs",
        "3 => (lines1, lines2) == (8, 0) && columns == (80, 0),",
        "3 => (8..=48).contains(&lines1) && lines2 == 0 && columns == (80, 0),"),
    entry("step-1-alone-sound-in-mode-3", "sound.rs", "s.kind == 3 &&", "s.kind == 3 && s.step == 1 &&"),
    entry("tracking-alone-sound-in-mode-3", "sound.rs", "s.kind == 3 &&", "s.kind == 3 && s.tracking == 1 &&"),
    entry("mode-3-unsound", "sound.rs",
        "3 => (lines1, lines2) == (8, 0) && columns == (80, 0),",
        ""),
    entry("dots-of-any-size-taken", "calls.rs",
        "&& dots.len() == DOTS",
        "&& (dots.len() == DOTS || dots.len() > DOTS)"),
    entry("dots-judged-in-mode-3-alone", "calls.rs",
        "if !sizes_right(cells, layer, shown, dots) {
        return Some(1);",
        "if !sizes_right(cells, layer, shown, if settings.mode == 3 { dots } else { &[0; DOTS] }) {
        return Some(1);"),
];
