//! The terminal with its own stores.

use px8::{COPY, Terminal};

#[test]
fn rows_as_program_show_prints_them() {
    let messages: [&[u8]; 5] = [
        &[65, 27, 27, 66],
        b"",
        b" a \x1b%\x01\x7f\xff  \r\n\n  b",
        &[120; 700],
        b"\x1b\xd0\x02\x0a\x14#left\x1b\xd1\x01right\x1b\xd2\x08\x50x",
    ];
    for bytes in messages {
        let mut terminal = Terminal::open();
        let answer = terminal.message_with_room(bytes, COPY).answer;
        assert_eq!(format!("{answer}\n{terminal}"), reference::text::show(bytes));
    }
}

#[test]
fn the_papers_sample() {
    let mut terminal = Terminal::open();
    let answer = terminal.message(&[65, 27, 27, 66]).answer;
    assert_eq!(answer.to_string(), "answer 0 taken 4 accepted 0 refused 1 first 10 at 1");
    assert_eq!(terminal.to_string(), "1 AB\n2\n3\n4\n5\n6\n7\n8\n");
}

#[test]
fn room_for_every_copy() {
    let mut terminal = Terminal::open();
    let reply = terminal.message(&[27, 80].repeat(2048));
    assert!(reply.answer.is_clean());
    assert_eq!((reply.answer.printed, reply.printed.len()), (2048 * COPY as u64, 2048 * COPY));
    // a parameter that looks like a copy costs room and nothing else
    assert_eq!(terminal.message(&[27, 243, 27, 80, 27, 80]).printed.len(), 0);
}

#[test]
fn a_lent_printer_buffer() {
    let mut terminal = Terminal::open();
    let mut printer = [7; 2 * COPY];
    let start = printer.as_ptr();
    let (answer, part) = terminal.message_into(b"net\x1bP", &mut printer);
    assert_eq!((answer.printed, part.len(), part.as_ptr()), (COPY as u64, COPY, start));
    assert!(part.starts_with(b"net ") && part.ends_with(b" \r\n"));
    assert_eq!(printer[COPY..], [7; COPY]);
}

#[test]
fn resumed_terminals_go_on() {
    let mut terminal = Terminal::open();
    let _ = terminal.message(b"\x1b\xd0\x01\x14gross\n\x1b\xd2\x02\x02*");
    let (cells, layer) = (*terminal.cells(), *terminal.layer());
    let mut again = Terminal::resume(*terminal.settings(), cells, layer, [0; px8::SHOWN], *terminal.dots());
    assert_eq!(again.message(b"net"), terminal.message(b"net"));
    assert_eq!(again, terminal);
}

#[test]
fn a_refused_message_changes_nothing() {
    let mut terminal = Terminal::open();
    let _ = terminal.message(b"tare");
    let before = terminal.clone();
    let reply = terminal.message(&[65; 4097]);
    assert_eq!((reply.answer.number, reply.printed.len()), (px8::TOO_LONG, 0));
    assert_eq!(terminal, before);
}

#[test]
fn rows_are_the_shown_screen() {
    let mut terminal = Terminal::open();
    let _ = terminal.message(b"1\r\n2\r\n3\r\n4\r\n5\r\n6\r\n7\r\n8");
    assert_eq!(terminal.rows().len(), 8);
    let firsts: Vec<u8> = terminal.rows().map(|row| row[0]).collect();
    assert_eq!(firsts, b"12345678");
    assert_eq!(terminal.rows().flatten().copied().collect::<Vec<u8>>(), terminal.shown());
}
