//! Every sequence on every kind of screen; windows, wraps and lifts there.

use super::Cases;

/// A mode setting, the screen to select, and that screen's measures.
pub struct Scene {
    pub name: &'static str,
    mode: &'static [u8],
    pub lines: [u8; 2],
    pub columns: [u8; 2],
    pub selected: u8,
}

const fn scene(
    name: &'static str,
    mode: &'static [u8],
    lines: [u8; 2],
    columns: [u8; 2],
    selected: u8,
) -> Scene {
    Scene { name, mode, lines, columns, selected }
}

#[rustfmt::skip]
pub const SCENES: [Scene; 9] = [
    scene("mode-0", &[27, 208, 0, 24, 24], [24, 24], [80, 80], 0),
    scene("mode-0-screen-2", &[27, 208, 0, 24, 24], [24, 24], [80, 80], 1),
    scene("mode-0-8-lines", &[27, 208, 0, 8, 40], [8, 40], [80, 80], 0),
    scene("mode-0-40-lines", &[27, 208, 0, 8, 40], [8, 40], [80, 80], 1),
    scene("mode-1", &[27, 208, 1, 20], [20, 20], [39, 39], 0),
    scene("mode-1-screen-2", &[27, 208, 1, 48], [48, 48], [39, 39], 1),
    scene("mode-2", &[27, 208, 2, 12, 30, 35], [12, 12], [30, 49], 0),
    scene("mode-2-screen-2", &[27, 208, 2, 12, 30, 35], [12, 12], [30, 49], 1),
    scene("mode-2-one-column", &[27, 208, 2, 10, 1, 124], [10, 10], [1, 78], 0),
];

impl Scene {
    pub fn height(&self) -> u8 {
        if self.mode[2] == 1 {
            16
        } else {
            8
        }
    }

    /// Sets the mode and labels the lines of both screens, then selects.
    pub fn messages(&self) -> [Vec<u8>; 2] {
        let mut first = self.mode.to_vec();
        for screen in 0..2 {
            first.extend([27, 209, screen as u8]);
            for line in 1..=self.lines[screen] {
                first.extend(label(screen, line, self.lines[screen], self.columns[screen]));
            }
        }
        // a cursor and a window off their ends, and some marks
        let lines = self.lines[usize::from(self.selected)];
        let mut second = vec![27, 209, self.selected, 27, 61, 31 + lines / 2, 31 + 1, 27, 215];
        second.extend([27, 210, 1, 1, 42, 27, 210, 4, 40, 43, 27, 210, 8, 80, 45]);
        [first, second]
    }
}

/// A line's name at its start and a letter at its end, where it does not
/// lift the screen.
fn label(screen: usize, line: u8, lines: u8, columns: u8) -> Vec<u8> {
    let mut bytes = vec![27, 61, 31 + line, 32];
    let letter = b'a' + (line + 3 * screen as u8) % 26;
    if columns < 8 {
        if line < lines {
            bytes.push(letter);
        }
        return bytes;
    }
    bytes.extend(format!("{}-{line:02}", screen + 1).as_bytes());
    bytes.extend([27, 61, 31 + line, 31 + columns - 1, letter]);
    if line < lines {
        bytes.push(letter - 32);
    }
    bytes
}

/// What is sent on each scene; the sequences stand by their second byte.
#[rustfmt::skip]
const ACTIONS: [(&str, &[u8]); 52] = [
    ("print", b"XY"), ("print-a-line", &[120; 81]), ("8", &[8]), ("10", &[10]), ("10-ten-times", &[10; 10]),
    ("12", &[12]), ("13", b"ab\rc"), ("other-codes", &[0, 7, 9, 11, 14, 26, 28, 31]),
    ("37", &[27, 37, 1]), ("42", &[27, 42]), ("50", &[27, 50]), ("51", &[27, 51]),
    ("61-home", &[27, 61, 32, 32]), ("61-line-8", &[27, 61, 39, 32]), ("67", &[27, 67, 68]),
    ("80", &[27, 80]), ("84", &[27, 84]), ("89", &[27, 89]), ("123", &[27, 123]), ("125", &[27, 125]),
    ("144", &[27, 144, 1, 5]), ("145", &[27, 145, 1, 5]), ("148-150", &[27, 148, 3, 27, 150]),
    ("148-151", &[27, 148, 3, 27, 151]), ("149", &[27, 149, 1, 10, 10, 10, 10, 10, 10, 10, 10]),
    ("150", &[27, 150]), ("151", &[27, 151]), ("leds", &[27, 160, 27, 162, 27, 164, 27, 163]),
    ("176", &[27, 176]), ("177", &[27, 177]), ("198", &[27, 198, 27, 27, 2, 3, 4, 5, 6, 7, 8, 9, 10]),
    ("199", &[27, 199, 27, 208, 1, 16]), ("209-0", &[27, 209, 0]), ("209-1", &[27, 209, 1]),
    ("209-at-the-end", &[27, 209]), ("210", &[27, 210, 2, 3, 31, 27, 210, 2, 4, 200]),
    ("211", &[27, 211, 0]), ("212", &[27, 212]), ("213", &[27, 213]), ("214", &[27, 214, 2]),
    ("213-215", &[27, 213, 27, 215]), ("213-print", &[27, 213, 80]), ("212-10", &[27, 212, 10]),
    ("224", &[27, 224, 254, 1, 2, 3, 4, 5, 6, 7, 8]), ("240", &[27, 240, 0]),
    ("241-242", &[27, 241, 5, 27, 242, 6]), ("243", &[27, 243, 1, 27, 3, 4]),
    ("244-245", &[27, 244, 5, 6, 7, 8, 27, 245, 9, 10, 11, 12]), ("246", &[27, 246]), ("247", &[27, 247, 34]),
    ("208-mode-3", &[27, 208, 3]), ("208-mode-1", &[27, 208, 1, 16]),
];

pub fn scenes(cases: &mut Cases) {
    for scene in &SCENES {
        let [first, second] = scene.messages();
        for (name, action) in ACTIONS {
            // the last message shows where the cursor is, and copies
            let last: &[u8] = b"z\x1bP";
            cases.add(format!("{}-{name}", scene.name), &[&first, &second, action, last]);
        }
    }
}

/// Windows by their own sequences, in all modes.
pub fn windows(cases: &mut Cases) {
    for scene in &SCENES {
        let [first, _] = scene.messages();
        for step in [1, 3, scene.height()] {
            let moves = [27, 209, scene.selected, 27, 212, 27, 148, step, 27, 151];
            let back = [27, 151, 27, 151, 27, 150];
            cases.add(format!("window-{}-step-{step}", scene.name), &[&first, &moves, &back]);
        }
        let select = [27, 209, scene.selected, 27, 149, 1];
        let half = scene.height() / 2;
        let lines = scene.lines[usize::from(scene.selected)];
        let mut tried = vec![1, half, half + 1, half + 2, lines - half, lines];
        tried.sort();
        tried.dedup();
        for line in tried {
            let place = [27, 61, 31 + line, 32, 27, 215];
            cases.add(format!("window-{}-215-line-{line}", scene.name), &[&first, &select, &place]);
        }
    }
}

/// The last column and the last line, by printing, 37 and code 10.
pub fn wraps_and_lifts(cases: &mut Cases) {
    for scene in &SCENES {
        let [first, second] = scene.messages();
        let lines = scene.lines[usize::from(scene.selected)];
        let columns = scene.columns[usize::from(scene.selected)];
        let mut add = |name: &str, line: u8, column: u8, action: &[u8]| {
            let place = [27, 61, 31 + line, 31 + column, 27, 210, 3, 3, 42];
            cases.add(format!("{name}-{}", scene.name), &[&first, &second, &place, action]);
        };
        add("wrap-print", 3, columns, b"XY");
        add("wrap-37", 3, columns, &[27, 37, 88, 27, 37, 89]);
        add("lift-print", lines, columns, b"XY");
        add("lift-37", lines, columns, &[27, 37, 88, 27, 37, 89]);
        add("lift-10", lines, columns, &[10]);
        add("lift-10-twice-with-text", lines, 1, b"\nX\n");
        add("lift-not-tracked", lines, columns, &[27, 149, 1, 27, 212, 88, 89]);
        add("back-from-column-1", 3, 1, &[8, 88]);
        add("back-from-the-last-column", 3, columns, &[8, 88]);
    }
}

/// What shows only beside something else: a flag turned back, a last cell that
/// is not blank, a mode setting that keeps what is stored.
pub fn what_else_shows(cases: &mut Cases) {
    cases.add("off-and-on-again", &[&[27, 176, 27, 50, 27, 240, 0], &[27, 177, 27, 51, 27, 240, 1]]);
    let stored = b"\x1b2\x1b\xd6\x03\x1b\xd3\x00\x1bCN\x1b\xa2\x1b\xb0\x1b\xf1\x01\x1b\xf7\x42\x1b\xf3\x01\x02\x03\x04";
    let pattern = [27, 224, 254, 1, 2, 3, 4, 5, 6, 7, 8];
    cases.add("mode-setting-keeps-what-is-stored", &[stored, &pattern, &[27, 208, 1, 16]]);
    // 145 brings what was printed in the line before to the last line
    let last_cells = b"\x1b=\x36nABC\x1b\x91\x00\x18";
    cases.add("erase-to-the-line's-last-cell", &[last_cells, &[27, 61, 55, 32, 27, 84]]);
    cases.add("erase-to-the-screen's-last-cell", &[last_cells, &[27, 61, 54, 33, 27, 89]]);
    let every: Vec<u8> = (0..=255).filter(|&code| code != 27).collect();
    cases.add("every-byte-but-27", &[&every]);
}
