//! Streams: the request's own examples, and the writer.

use px8::{COPY, Reply, Settings, Terminal};
use std::io::Write;

/// taken, accepted, refused, first, offset
fn counts(reply: &Reply) -> [u32; 5] {
    let answer = reply.answer;
    assert_eq!(answer.number, px8::SERVED);
    [answer.taken, answer.accepted, answer.refused, answer.first.into(), answer.offset]
}

fn closed(terminal: &mut Terminal) -> [u32; 5] {
    counts(&Reply { answer: terminal.closing(), printed: Vec::new() })
}

#[test]
fn an_escape_at_a_pieces_end() {
    let mut terminal = Terminal::open();
    assert_eq!(counts(&terminal.piece(&[65, 27])), [2, 0, 0, 0, 0]);
    assert_eq!(counts(&terminal.piece(&[27, 66])), [2, 0, 1, 10, 1]);
    assert_eq!(closed(&mut terminal), [0, 0, 0, 0, 0]);
    assert!(terminal.shown().starts_with(b"AB "));
}

#[test]
fn a_selection_waits_and_a_message_is_refused() {
    let mut terminal = Terminal::open();
    let _ = terminal.piece(&[65, 65, 65, 65, 65, 27, 209]);
    let before = terminal.clone();
    assert_eq!((before.settings().count, before.settings().waiting()), (7, &[27, 209][..]));
    assert_eq!(terminal.message(&[65]).answer.number, px8::BYTES_WAIT);
    assert_eq!(terminal, before);
    assert_eq!(counts(&terminal.piece(&[27])), [1, 0, 1, 11, 5]);
}

#[test]
fn only_closing_means_screen_1() {
    let mut terminal = Terminal::open();
    let _ = terminal.message(&[27, 209, 1]);
    let _ = terminal.piece(&[27, 209]);
    assert_eq!(terminal.settings().selected, 1);
    assert_eq!(closed(&mut terminal), [0, 1, 0, 0, 0]);
    assert_eq!(terminal.settings().selected, 0);
    // a whole message reads it as before
    let _ = terminal.message(&[27, 209, 1]);
    assert_eq!(counts(&terminal.message(&[27, 209])), [2, 1, 0, 0, 0]);
    assert_eq!(terminal.settings().selected, 0);
}

#[test]
fn offsets_count_from_the_streams_start() {
    let mut terminal = Terminal::open();
    let _ = terminal.piece(&[65; 4096]);
    let _ = terminal.piece(&[27, 61]);
    assert_eq!(counts(&terminal.piece(&[99, 32])), [2, 0, 1, 11, 4096]);
}

#[test]
fn room_is_that_of_the_call_that_ends_the_sequence() {
    let mut terminal = Terminal::open();
    assert_eq!(terminal.piece_with_room(&[27, 80, 27], COPY).printed.len(), COPY);
    assert_eq!(counts(&terminal.piece_with_room(&[80], COPY - 1)), [1, 0, 1, 13, 2]);
    // with room for all, a copy that is cut in two prints
    let _ = terminal.piece(&[27]);
    assert_eq!(terminal.piece(&[80, 27, 80]).printed.len(), 2 * COPY);
}

#[test]
fn a_message_between_counts_from_itself() {
    let mut terminal = Terminal::open();
    let _ = terminal.piece(&[65]);
    assert_eq!(counts(&terminal.message(&[66, 27])), [2, 0, 1, 12, 1]);
    assert_eq!(terminal.settings().count, 1);
    let _ = terminal.piece(&[27]);
    assert_eq!(closed(&mut terminal), [0, 0, 1, 12, 1]);
}

#[test]
fn a_pattern_in_two_pieces() {
    let mut terminal = Terminal::open();
    let _ = terminal.piece(&[27, 224, 224, 1, 2, 3]);
    assert_eq!(counts(&terminal.piece(&[4, 5, 6, 7, 8, 27, 99])), [7, 1, 1, 10, 11]);
    assert_eq!(terminal.settings().patterns[..8], [1, 2, 3, 4, 5, 6, 7, 8]);
}

/// A line with text, sequences, refusals and copies, and what stands after it.
fn line() -> Vec<u8> {
    let parts: [&[u8]; 6] = [
        b"LOAD kg \x1b=#$38,500\x1bP",
        &[27, 224, 225, 1, 2, 3, 4, 5, 6, 7, 8, 27, 27, 27, 210, 8, 80, b'*'],
        &[27, 208, 2, 10, 20, b'|', b'x', 27, 61, 99, 32, b'y'],
        &[b'r'; 70],
        &[27, 209, 1, 27, 198, 27, 27, 80, 80, 27, 209, 1, 27, 80, 27, 27, b'z'],
        &[27, 80, 27, 209],
    ];
    parts.concat()
}

/// Cut at every byte into two, and byte by byte: as one message.
#[test]
fn however_it_is_cut() {
    let line = line();
    let mut whole = Terminal::open();
    let expected = whole.message(&line);
    let cuts = (0..=line.len()).map(|at| vec![&line[..at], &line[at..]]);
    for pieces in cuts.chain([line.chunks(1).collect(), line.chunks(5).collect()]) {
        let mut terminal = Terminal::open();
        let mut stream = terminal.stream();
        for piece in &pieces {
            stream.write_all(piece).unwrap();
        }
        assert_eq!(stream.close().unwrap(), expected, "{:?}", pieces[0]);
        assert_eq!(terminal, whole);
    }
    assert_eq!((expected.answer.refused, expected.printed.len()), (2, 2 * COPY));
}

#[test]
fn a_write_takes_a_piece() {
    let mut terminal = Terminal::open();
    let mut stream = terminal.stream();
    assert_eq!(stream.write(&[b'a'; 5000]).unwrap(), 4096);
    assert_eq!(stream.write(&[]).unwrap(), 0);
    stream.write_all(&[b'b'; 10_000]).unwrap();
    stream.flush().unwrap();
    assert_eq!((stream.so_far().answer.taken, stream.terminal().settings().count), (14_096, 14_096));
    assert!(stream.terminal().shown().contains(&b'b'));
}

/// A stream that is not closed goes on later.
#[test]
fn dropped_streams_stay_open() {
    let mut terminal = Terminal::open();
    terminal.stream().write_all(b"net\x1b=").unwrap();
    assert_eq!(terminal.settings().waiting(), b"\x1b=");
    let mut stream = terminal.stream();
    stream.write_all(b"\x01\x01").unwrap();
    let refusal = stream.so_far().answer.refusal().unwrap();
    assert_eq!((refusal.number, refusal.parameter, refusal.offset), (px8::OUT_OF_RANGE, 1, 3));
    assert_eq!(stream.close().unwrap().answer.taken, 2);
    assert_eq!(terminal.settings().count, 0);
}

#[test]
fn refused_pieces_are_errors() {
    let open = Terminal::open();
    for (settings, number, words) in [
        (Settings { step: 0, ..*open.settings() }, 3, "3: a setting is outside its range"),
        (
            Settings { count: px8::COUNT_MOST - 1, ..*open.settings() },
            15,
            "15: the stream would be longer than 1000000000 bytes",
        ),
    ] {
        let mut terminal =
            Terminal::resume(settings, *open.cells(), *open.layer(), *open.shown(), *open.dots());
        let before = terminal.clone();
        let mut stream = terminal.stream();
        let error = stream.write_all(b"ab").unwrap_err();
        let refused: &px8::Refused = error.get_ref().unwrap().downcast_ref().unwrap();
        assert_eq!((refused.number(), error.to_string()), (number, format!("refused by {words}")));
        assert_eq!(stream.so_far().answer.taken, 0);
        assert_eq!(stream.close().is_err(), number == 3);
        assert_eq!(terminal == before, number == 3);
    }
}
