//! Lines that run on, through the crate: document 02's examples.

use px8::Terminal;

fn after(messages: &[&[u8]]) -> Terminal {
    let mut terminal = Terminal::open();
    for message in messages {
        let answer = terminal.message(message).answer;
        assert!(answer.is_clean(), "{message:?}: {answer}");
    }
    terminal
}

fn marked(terminal: &Terminal) -> Vec<usize> {
    terminal.settings().marked_lines(0).collect()
}

#[test]
fn the_whole_logical_line_is_erased() {
    let terminal = after(&[&[65; 81], &[27, 61, 32, 32, 27, 84]]);
    assert!(terminal.cells().iter().all(|&code| code == 32));
    // from its second line on
    let terminal = after(&[&[65; 160], b"rest", &[27, 61, 33, 32, 27, 84]]);
    assert_eq!(marked(&terminal), [1]);
    assert!(terminal.cells()[..80].iter().all(|&code| code == 65));
    assert!(terminal.cells()[80..].iter().all(|&code| code == 32));
}

#[test]
fn lifts_carry_marks() {
    let mut terminal = after(&[&[27, 61, 55, 111, 65]]);
    assert_eq!(marked(&terminal), [23]);
    let _ = terminal.message(b"B\x1b=6o\x1bT");
    assert!(terminal.cells().iter().all(|&code| code == 32));
    assert_eq!(marked(&after(&[&[65; 240], &[27, 61, 55, 32, 10]])), [1, 2]);
    assert_eq!(marked(&after(&[&[27, 208, 2, 8, 1, 35, 65, 66]])), [1, 2]);
}

#[test]
fn scrolled_marks() {
    for (lines, bytes, expected) in [
        (2, [27, 145, 0, 3], &[][..]),
        (2, [27, 145, 0, 4], &[2]),
        (2, [27, 144, 1, 23], &[]),
        (5, [27, 145, 2, 4], &[1, 4]),
        (3, [27, 144, 2, 1], &[1]),
        (5, [27, 144, 1, 2], &[4, 5]),
    ] {
        assert_eq!(marked(&after(&[&vec![65; 80 * lines], &bytes])), expected, "{lines} {bytes:?}");
    }
}

#[test]
fn clearing() {
    let both = [&[65; 160][..], &[27, 209, 1], &[65; 240]].concat();
    let count = |bytes: &[u8]| {
        let terminal = after(&[&both, bytes]);
        [0, 1].map(|screen| terminal.settings().marked_lines(screen).count())
    };
    assert_eq!(count(&[27, 42]), [2, 0]);
    assert_eq!(count(&[12]), [2, 0]);
    assert_eq!(count(&[27, 61, 33, 32, 27, 89]), [2, 1]);
    assert_eq!(count(&[27, 209, 0, 27, 42]), [0, 3]);
    assert_eq!(count(&[27, 208, 0, 24, 24]), [0, 0]);
}
