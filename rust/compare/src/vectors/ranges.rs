//! Both ends of every range, and one beyond.

use super::scenes::SCENES;
use super::Cases;

/// Both ends of the ranges that hang on the screen, and one beyond.
pub fn range_ends(cases: &mut Cases) {
    for scene in &SCENES {
        let [first, second] = scene.messages();
        let lines = scene.lines[usize::from(scene.selected)];
        let columns = scene.columns[usize::from(scene.selected)];
        let mut add = |name: &str, action: &[u8]| {
            cases.add(format!("range-{}-{name}", scene.name), &[&first, &second, action]);
        };
        add("61-line-1-column-1", &[27, 61, 32, 32]);
        add("61-line-0", &[27, 61, 31, 32]);
        add("61-column-0", &[27, 61, 32, 31]);
        add("61-last-line-last-column", &[27, 61, 31 + lines, 31 + columns]);
        add("61-line-beyond", &[27, 61, 32 + lines, 32]);
        add("61-column-beyond", &[27, 61, 32, 32 + columns]);
        for second in [144, 145] {
            add(&format!("{second}-all-lines"), &[27, second, 0, lines]);
            add(&format!("{second}-a-too-many"), &[27, second, 0, lines + 1]);
            add(&format!("{second}-last-line"), &[27, second, lines - 1, 1]);
            add(&format!("{second}-first-line"), &[27, second, 0, 1]);
            add(&format!("{second}-none"), &[27, second, 0, 0]);
            add(&format!("{second}-start-beyond"), &[27, second, lines, 1]);
            add(&format!("{second}-sum-beyond"), &[27, second, 1, lines]);
        }
        add("148-0", &[27, 148, 0]);
        add("148-1", &[27, 148, 1, 27, 150]);
        add("148-height", &[27, 148, scene.height(), 27, 150]);
        add("148-beyond", &[27, 148, scene.height() + 1, 27, 150]);
    }
    fixed_ends(cases);
}

/// Both ends of the ranges that are the same everywhere, and one beyond.
fn fixed_ends(cases: &mut Cases) {
    let single: [(u8, &[u8]); 9] = [
        (149, &[0, 1, 2, 255]),
        (209, &[0, 1, 2, 255]),
        (211, &[0, 1, 2, 255]),
        (240, &[0, 1, 2, 255]),
        (214, &[0, 3, 4, 255]),
        (241, &[0, 1, 127, 128]),
        (242, &[0, 1, 127, 128]),
        (67, &[65, 67, 72, 84, 86, 117, 0]),
        (247, &[1, 3, 5, 7, 8, 17, 20, 33, 36, 48, 65, 68, 255]),
    ];
    for (second, numbers) in single {
        for &number in numbers {
            cases.add(format!("range-{second}-{number}"), &[b"text", &[27, second, number, 46]]);
        }
    }
    for code in [0, 223, 224, 254, 255] {
        cases.add(format!("range-224-{code}"), &[&[27, 224, code, 1, 2, 3, 4, 5, 6, 7, 8, 46]]);
    }
    for (row, column) in [(0, 1), (1, 0), (1, 1), (1, 80), (1, 81), (8, 1), (8, 80), (9, 1), (255, 255)] {
        cases.add(format!("range-210-{row}-{column}"), &[b"text", &[27, 210, row, column, 88]]);
    }
    for code in [0, 8, 10, 13, 27, 31, 32, 126, 127, 255] {
        cases.add(format!("range-37-{code}"), &[&[65, 27, 37, code, 66]]);
    }
}

/// The ranges of the mode setting, with text and marks that stay if refused.
#[rustfmt::skip]
pub fn mode_ends(cases: &mut Cases) {
    let settings: [&[u8]; 31] = [
        &[0, 8, 8], &[0, 8, 40], &[0, 40, 8], &[0, 24, 24], &[0, 7, 24], &[0, 24, 7], &[0, 8, 41],
        &[0, 41, 8], &[0, 24, 25], &[0, 255, 8], &[0, 8, 255], &[0, 0, 0], &[1, 15], &[1, 16], &[1, 48],
        &[1, 49], &[1, 0], &[1, 255], &[2, 7, 40, 33], &[2, 8, 40, 33], &[2, 48, 40, 33],
        &[2, 49, 40, 33], &[2, 8, 0, 33], &[2, 8, 1, 0], &[2, 8, 78, 255], &[2, 8, 79, 33],
        &[2, 48, 78, 27], &[3], &[4], &[27], &[255],
    ];
    for parameters in settings {
        let name: Vec<String> = parameters.iter().map(u8::to_string).collect();
        let message = [&[27, 208][..], parameters, b"after"].concat();
        let before = b"text\x1b\x94\x05\x1b\x95\x01\x1b\xd2\x03\x03X\x1b\xd1\x01more\x1b\xd2\x04\x04Y";
        cases.add(format!("mode-setting-{}", name.join("-")), &[before, &message]);
    }
    // the boundary stays outside mode 2, the secret through all
    cases.add("mode-setting-keeps-the-boundary", &[&[27, 208, 2, 8, 9, 35], &[27, 208, 1, 16], &[27, 208, 0, 8, 8]]);
    cases.add("mode-setting-under-secret", &[&[27, 123, 27, 208, 2, 8, 9, 35, 65], &[27, 125]]);
}
