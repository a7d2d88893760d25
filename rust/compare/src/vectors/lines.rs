//! Document 02, P5: lines that run on.

use super::scenes::SCENES;
use super::Cases;

pub fn cases(cases: &mut Cases) {
    examples(cases);
    for scene in &SCENES {
        let screen = usize::from(scene.selected);
        let (lines, columns) = (scene.lines[screen], scene.columns[screen]);
        let put = |line: u8, column: u8| [27, 61, 31 + line, 31 + column];
        // lines 2, 3 and 5 run on, on the other screen all that can
        let mut start = vec![27, 209, scene.selected, 27, 42];
        for line in [2, 3, 5] {
            start.extend(put(line, columns));
            start.push(b'0' + line);
        }
        let mut add = |name: &str, action: &[u8]| {
            let messages: [&[u8]; 4] = [&scene.messages()[0], &start, action, b"z\x1bP"];
            cases.add(format!("lines-{}-{name}", scene.name), &messages);
        };
        for line in 1..=6 {
            add(&format!("84-line-{line}"), &[&put(line, 1)[..], &[27, 84]].concat());
        }
        add("84-last-column", &[&put(2, columns)[..], &[27, 84]].concat());
        for line in [1, 3, 4, lines] {
            add(&format!("89-line-{line}"), &[&put(line, 1)[..], &[27, 89]].concat());
        }
        for (a, m) in [(0, 3), (0, lines), (1, 1), (1, 2), (1, 4), (2, 3), (3, 2), (4, 1), (5, 2)] {
            add(&format!("144-{a}-{m}"), &[27, 144, a, m]);
            add(&format!("145-{a}-{m}"), &[27, 145, a, m]);
        }
        add("lift-10", &[&put(lines, columns)[..], &[10]].concat());
        add("lift-10-thrice", &[&put(lines, 1)[..], &[10; 3]].concat());
        add("lift-print", &[&put(lines, columns)[..], b"X"].concat());
        add("lift-print-then-84", &[&put(lines, columns)[..], b"XY", &put(lines - 1, 1), &[27, 84]].concat());
        add("lift-37", &[&put(lines, columns)[..], &[27, 37, 0]].concat());
        add("printed-over", &[&put(3, 1)[..], b"o\r\n"].concat());
        add("8-61-13", &[&put(2, columns)[..], &[8, 13], &put(3, 1), &[8]].concat());
        add("12", &[12]);
        add("208", &[27, 208, 0, 24, 24]);
        add("208-refused", &[27, 208, 0, 24, 25]);
        add("209-42", &[27, 209, 1 - scene.selected, 27, 42]);
        add("209-84", &[27, 209, 1 - scene.selected, 27, 61, 34, 32, 27, 84]);
    }
}

/// The request's own examples, by number.
fn examples(cases: &mut Cases) {
    let full = |lines: usize| vec![65; 80 * lines];
    cases.add("lines-1-erased", &[&[65; 81], &[27, 61, 32, 32, 27, 84]]);
    cases.add("lines-2-the-last-line", &[&[27, 61, 55, 111, 65], b"B", &[27, 61, 54, 111, 27, 84]]);
    for (lines, second, a, m) in [
        (2, 145, 0, 3),
        (2, 145, 0, 4),
        (2, 144, 1, 23),
        (5, 145, 2, 4),
        (3, 144, 2, 1),
        (3, 145, 2, 1),
        (5, 144, 1, 2),
        (5, 145, 1, 2),
        (5, 144, 0, 24),
        (5, 145, 0, 24),
    ] {
        cases.add(format!("lines-3-{second}-{a}-{m}-of-{lines}"), &[&full(lines), &[27, second, a, m]]);
    }
    cases.add("lines-4-from-the-second-line", &[&full(2), b"rest", &[27, 61, 33, 32, 27, 84]]);
    cases.add("lines-5-line-step", &[&full(3), &[27, 61, 55, 32, 10]]);
    cases.add("lines-6-one-column", &[&[27, 208, 2, 8, 1, 35, 65, 66]]);
    cases.add("lines-6-one-column-lifted", &[&[27, 208, 2, 8, 1, 35], &[65; 20]]);
}
