//! The late wrap through the crate: document 02's examples.

use px8::Terminal;

const FULL: &[u8] = &[65; 80];
const LAST: &[u8] = &[27, 61, 55, 111, 65];

/// By rule 2.
fn after(messages: &[&[u8]]) -> Terminal {
    let mut terminal = Terminal::open_with(2).unwrap();
    for message in messages {
        let answer = terminal.message(message).answer;
        assert!(answer.is_clean(), "{message:?}: {answer}");
    }
    terminal
}

/// Line, column and flag of screen 1, and its lines that run on.
fn stands(terminal: &Terminal) -> (u8, u8, u8, Vec<usize>) {
    let place = terminal.settings().places[0];
    (place.line, place.column, place.late, terminal.settings().marked_lines(0).collect())
}

fn cell(terminal: &Terminal, line: usize, column: usize) -> u8 {
    terminal.cells()[80 * (line - 1) + column - 1]
}

#[test]
fn the_cursor_waits_and_steps() {
    let mut terminal = after(&[FULL]);
    assert_eq!(stands(&terminal), (1, 80, 1, vec![]));
    let _ = terminal.message(&[66]);
    assert_eq!((stands(&terminal), cell(&terminal, 2, 1)), ((2, 2, 0, vec![1]), 66));
    let terminal = after(&[LAST, &[27, 37, 66]]);
    assert_eq!((stands(&terminal), cell(&terminal, 24, 1)), ((24, 2, 0, vec![23]), 66));
}

#[test]
fn what_clears_the_flag() {
    for (bytes, expected, line, column) in [
        (&[13, 66][..], (1, 2, 0), 1, 1),
        (&[8, 66], (1, 80, 0), 1, 79),
        (&[10, 66], (2, 80, 1), 2, 80),
        (&[27, 61, 32, 111, 66], (1, 80, 1), 1, 80),
        (&[12, 66], (1, 2, 0), 1, 1),
        (&[27, 42, 66], (1, 2, 0), 1, 1),
    ] {
        let terminal = after(&[FULL, bytes]);
        let (l, c, flag, marked) = stands(&terminal);
        assert_eq!(
            ((l, c, flag), marked, cell(&terminal, line, column)),
            (expected, vec![], 66),
            "{bytes:?}"
        );
    }
    let terminal = after(&[LAST, &[10]]);
    assert_eq!((stands(&terminal), cell(&terminal, 23, 80)), ((24, 80, 0, vec![]), 65));
    let terminal = after(&[FULL, &[27, 209, 1], FULL, &[27, 208, 0, 24, 24]]);
    assert_eq!(terminal.settings(), Terminal::open_with(2).unwrap().settings());
}

#[test]
fn what_keeps_it() {
    let mut terminal = after(&[LAST, &[27, 84]]);
    assert_eq!((stands(&terminal), cell(&terminal, 24, 80)), ((24, 80, 1, vec![]), 32));
    let _ = terminal.message(&[66]);
    assert_eq!((stands(&terminal), cell(&terminal, 24, 1)), ((24, 2, 0, vec![23]), 66));
    let terminal = after(&[FULL, &[27, 209, 1, 27, 209, 0, 66]]);
    assert_eq!(cell(&terminal, 2, 1), 66);
    let terminal = after(&[&[27, 208, 2, 8, 1, 35, 65, 66]]);
    assert_eq!(stands(&terminal), (2, 1, 1, vec![1]));
}

#[test]
fn rule_1_stays() {
    let mut terminal = Terminal::open();
    let _ = terminal.message(FULL);
    assert_eq!(stands(&terminal), (2, 1, 0, vec![1]));
    assert_eq!(Terminal::open_with(1).unwrap(), Terminal::open());
}
