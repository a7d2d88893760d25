//! Document 02, P2: what a copy could get wrong of the key line. A key text
//! that paints is not among them: the call has no store.

use super::{entry, Break};

#[rustfmt::skip]
pub const BREAKS: &[Break] = &[
    // a changed 211
    entry("211-holds-the-selected-top-alone", "apply.rs",
        "for screen in 0..2 {
            let greatest",
        "for screen in self.screen()..=self.screen() {
            let greatest"),
    entry("211-holds-the-other-top-alone", "apply.rs",
        "for screen in 0..2 {
            let greatest",
        "for screen in 1 - self.screen()..2 - self.screen() {
            let greatest"),
    entry("211-puts-tops-at-their-greatest", "apply.rs", "*top = greatest.min(*top);", "*top = greatest;"),
    entry("211-puts-tops-at-1", "apply.rs", "*top = greatest.min(*top);", "*top = 1;"),
    entry("211-keeps-the-layer", "apply.rs",
        "self.settings.display = display;
        self.empty_layer();",
        "self.settings.display = display;"),
    entry("211-empties-the-layer-only-where-a-top-moves", "apply.rs",
        "self.settings.display = display;
        self.empty_layer();",
        "self.settings.display = display;
        if (0..2).any(|screen| usize::from(self.settings.places[screen].top) > self.settings.greatest_top(screen)) {
            self.empty_layer();
        }"),
    entry("unchanged-211-empties-the-layer", "apply.rs",
        "if self.settings.display == display {",
        "if self.settings.display == display {
            self.empty_layer();"),
    entry("211-leaves-the-step", "apply.rs", "self.settings.step = height.min(self.settings.step);", ""),
    entry("211-puts-the-step-at-the-height", "apply.rs",
        "self.settings.step = height.min(self.settings.step);",
        "self.settings.step = height;"),
    entry("211-puts-the-step-at-1", "apply.rs",
        "self.settings.step = height.min(self.settings.step);",
        "self.settings.step = if self.settings.step > height { 1 } else { self.settings.step };"),
    entry("tracking-after-211", "apply.rs",
        "self.settings.step = height.min(self.settings.step);",
        "self.settings.step = height.min(self.settings.step);
        self.track(Tracking::Least);"),
    entry("208-puts-the-key-line-away", "apply.rs", "settings.step = 1;", "settings.step = 1;
        settings.display = 1;"),
    entry("208-blanks-the-texts", "apply.rs", "settings.step = 1;", "settings.step = 1;
        settings.texts = [BLANK; 80];"),
    // windows
    entry("tracking-by-the-whole-height", "apply.rs",
        "let height = self.settings.height();",
        "let height = if self.settings.mode == 1 { 16 } else { 8 };"),
    entry("215-by-half-the-whole-height", "apply.rs",
        "let half = self.settings.height() / 2;",
        "let half = if self.settings.mode == 1 { 8 } else { 4 };"),
    entry("215-rounds-up", "apply.rs",
        "let half = self.settings.height() / 2;",
        "let half = self.settings.height().div_ceil(2);"),
    entry("148-takes-8-with-the-key-line", "read.rs",
        "148 => named(&[(1..=settings.height()).contains(&number(0))]),",
        "148 => named(&[(1..=settings.height() / 7 * 8).contains(&number(0))]),"),
    entry("208-takes-7-lines-with-the-key-line", "read.rs",
        "208 => first_bad_of_mode(parameters),",
        "208 if settings.display == 0 && parameters[..2] == [0, 7] && (8..=41).contains(&parameters[2]) => None,
        208 => first_bad_of_mode(parameters),"),
    entry("fewer-lines-sound-with-the-key-line", "sound.rs",
        "0 => lines1 >= 8 &&",
        "0 => lines1 >= s.height() as u32 &&"),
    entry("fewer-lines-of-mode-1-sound-with-the-key-line", "sound.rs",
        "(16..=48).contains(&lines1)",
        "(s.height() as u32..=48).contains(&lines1)"),
    // the picture
    entry("right-half-eight-lines-on", "picture.rs",
        "line: top(selected) + rows - 1 + row,",
        "line: top(selected) + 7 + row,"),
    entry("right-half-keeps-its-marks-by-eight", "picture.rs",
        "(1, _) if row > rows => Some(place(row - rows, column + 41)),",
        "(1, _) if row > 8 => Some(place(row - 8, column + 41)),"),
    entry("boundary-in-row-8", "picture.rs",
        "if row > rows {",
        "if row > rows && !(settings.mode == 2 && column == m + 1) {"),
    entry("row-8-of-mode-1-blank-between", "picture.rs",
        "if row > rows {",
        "if row > rows && settings.mode == 1 && (column == 40 || column == 41) {
        return Source::Blank;
    }
    if row > rows {"),
    entry("texts-a-column-on", "picture.rs",
        "Source::KeyLine { at: column - 1 }",
        "Source::KeyLine { at: column % 80 }"),
    entry("key-line-seen-in-secret", "picture.rs",
        "if settings.secret == 1 {",
        "if settings.secret == 1 && row <= settings.screen_rows() {"),
    entry("key-line-over-the-layer", "picture.rs",
        "if layer[at] != 0 {",
        "if layer[at] != 0 && row <= settings.screen_rows() {"),
    entry("marks-in-row-8-go-with-the-line-below", "picture.rs",
        "if line < top || line >= top + settings.height() {",
        "if settings.mode == 0 && line == top + 7 {
        return Some(place(8, column));
    }
    if line < top || line >= top + settings.height() {"),
    entry("copy-without-the-key-line", "picture.rs",
        "room[at] = picture(settings, cells, layer, row, column).max(BLANK);",
        "let code = picture(settings, cells, layer, row, column).max(BLANK);
            room[at] = if row > settings.screen_rows() && layer[place(row, column)] == 0 { BLANK } else { code };"),
    // the key text call
    entry("opening-texts-0", "calls.rs", "..OPENING }, 0)", "texts: [0; 80], ..OPENING }, 0)"),
    entry("key-0-served", "calls.rs",
        "if !(1..=KEYS).contains(&number)",
        "let number = if number == 0 { 1 } else { number };
    if !(1..=KEYS).contains(&number)"),
    entry("key-11-served", "calls.rs",
        "if !(1..=KEYS).contains(&number)",
        "let number = if number == 11 { 10 } else { number };
    if !(1..=KEYS).contains(&number)"),
    entry("key-by-its-low-byte", "calls.rs",
        "if !(1..=KEYS).contains(&number)",
        "let number = number & 255;
    if !(1..=KEYS).contains(&number)"),
    entry("key-by-its-low-four-bytes", "calls.rs",
        "if !(1..=KEYS).contains(&number)",
        "let number = number as u32 as usize;
    if !(1..=KEYS).contains(&number)"),
    entry("text-of-7-served", "calls.rs",
        "if !(1..=KEYS).contains(&number)",
        "let padded = [text, &[BLANK]].concat();
    let text = if text.len() == 7 { &padded[..] } else { text };
    if !(1..=KEYS).contains(&number)"),
    entry("text-of-9-served", "calls.rs",
        "if !(1..=KEYS).contains(&number)",
        "let text = if text.len() == 9 { &text[..8] } else { text };
    if !(1..=KEYS).contains(&number)"),
    entry("17-judged-before-3", "calls.rs",
        "return refused(3);",
        "return refused(if (1..=KEYS).contains(&number) && text.len() == KEY_TEXT { 3 } else { 17 });"),
    entry("key-text-served-unsound", "calls.rs", "if !sound(&settings) {
        return refused(3);
    }", ""),
    entry("key-text-refused-while-bytes-wait", "calls.rs",
        "if !sound(&settings) {
        return refused(3);
    }",
        "if !sound(&settings) {
        return refused(3);
    }
    if settings.held > 0 {
        return refused(16);
    }"),
    entry("key-text-refused-without-the-key-line", "calls.rs",
        "if !(1..=KEYS).contains(&number) ||",
        "if settings.display == 1 || !(1..=KEYS).contains(&number) ||"),
    entry("keys-counted-from-the-end", "calls.rs",
        "let start = KEY_TEXT * (number - 1);",
        "let start = KEY_TEXT * (KEYS - number);"),
    entry("key-text-counted-as-taken", "calls.rs",
        "(after, Answer::default())",
        "(after, Answer { taken: 8, ..Answer::default() })"),
];
