//! The picture, the shown screen and the printed copy.

use super::settings::{Settings, BLANK, COPY, DOTS, MARKS, ROWS, WIDTH};

/// Row r, column c is byte 80(r−1)+c−1 of the shown screen, and of the marks.
pub fn place(row: usize, column: usize) -> usize {
    WIDTH * (row - 1) + column - 1
}

/// "The picture at row r, column c", of sound settings.
pub fn picture(settings: &Settings, cells: &[u8], layer: &[u8], row: usize, column: usize) -> u8 {
    let at = place(row, column);
    if settings.secret == 1 {
        return BLANK;
    }
    if layer[at] != 0 {
        return layer[MARKS + at];
    }
    match source(settings, row, column) {
        Source::Blank => BLANK,
        Source::Boundary => settings.boundary,
        Source::KeyLine { at } => settings.texts[at],
        Source::Cell { screen, line, column } => cells[settings.cell(screen, line, column)],
    }
}

/// What stands at a place of the picture without secret and layer.
#[derive(Clone, Copy, Debug, PartialEq, Eq)]
pub enum Source {
    Blank,
    Boundary,
    /// a code of the key texts, counted from 0
    KeyLine {
        at: usize,
    },
    Cell {
        screen: usize,
        line: usize,
        column: usize,
    },
}

pub fn source(settings: &Settings, row: usize, column: usize) -> Source {
    let selected = usize::from(settings.selected);
    let top = |screen: usize| usize::from(settings.places[screen].top);
    let m = settings.columns(0);
    let rows = settings.screen_rows();
    if row > rows {
        return Source::KeyLine { at: column - 1 };
    }
    match settings.mode {
        // mode 3: "The picture is screen 1 under the layer"
        0 | 3 => Source::Cell { screen: selected, line: top(selected) + row - 1, column },
        1 if column <= 39 => Source::Cell { screen: selected, line: top(selected) + row - 1, column },
        1 if column <= 41 => Source::Blank,
        // "42 to 80 from line top+7+r"; with the key line this half "starts
        // seven lines after the left"
        1 => Source::Cell { screen: selected, line: top(selected) + rows - 1 + row, column: column - 41 },
        _ if column <= m => Source::Cell { screen: 0, line: top(0) + row - 1, column },
        _ if column == m + 1 => Source::Boundary,
        _ => Source::Cell { screen: 1, line: top(1) + row - 1, column: column - m - 1 },
    }
}

/// The place where the picture without secret and layer shows the cursor's
/// cell, if any. It is `source` turned round; a test holds the two together.
pub fn cursor_place(settings: &Settings) -> Option<usize> {
    let screen = usize::from(settings.selected);
    let line = usize::from(settings.places[screen].line);
    let column = usize::from(settings.places[screen].column);
    let top = usize::from(settings.places[screen].top);
    if line < top || line >= top + settings.height() {
        return None;
    }
    let row = line - top + 1;
    let rows = settings.screen_rows();
    match (settings.mode, screen) {
        // mode 1's window goes on in the right half
        (1, _) if row > rows => Some(place(row - rows, column + 41)),
        (2, 1) => Some(place(row, column + settings.columns(0) + 1)),
        _ => Some(place(row, column)),
    }
}

/// "It always ends by painting all 640 places."
pub fn paint(settings: &Settings, cells: &[u8], layer: &[u8], shown: &mut [u8]) {
    for row in 1..=ROWS {
        for column in 1..=WIDTH {
            shown[place(row, column)] = picture(settings, cells, layer, row, column);
        }
    }
}

/// What a copy needs of room.
pub fn copy_size(settings: &Settings) -> usize {
    if settings.mode == 3 {
        DOTS
    } else {
        COPY
    }
}

/// "the picture at that moment, 8 rows of 80 with codes below 32 as 32, each
/// followed by 13, 10", into the first 656 bytes of `room`; "In mode 3, 80 appends
/// the 3,840 bytes", and secret does not hide them.
pub fn copy(settings: &Settings, cells: &[u8], layer: &[u8], dots: &[u8], room: &mut [u8]) {
    if settings.mode == 3 {
        return room[..DOTS].copy_from_slice(dots);
    }
    let mut at = 0;
    for row in 1..=ROWS {
        for column in 1..=WIDTH {
            room[at] = picture(settings, cells, layer, row, column).max(BLANK);
            at += 1;
        }
        room[at] = 13;
        room[at + 1] = 10;
        at += 2;
    }
    debug_assert_eq!(at, COPY);
}
