//! Packs: a terminal's pack is its messages one by one; every number, and nothing
//! changed by a refused one.

use px8::{COPY, Settings, Terminal};

/// Messages of every kind, copies and refusals among them.
fn messages() -> Vec<Vec<u8>> {
    let mut messages: Vec<Vec<u8>> = (0..50).map(|n| format!("\r{n:05} kg\x1bP").into_bytes()).collect();
    messages.extend([vec![], vec![27], vec![27, 209, 1], vec![27, 209], vec![65, 27, 61, 99, 99]]);
    messages.extend([vec![27, 208, 3], vec![27, 199, 1, 9, 0, 9, 27, 80], vec![27, 208, 0, 24, 24, 66]]);
    messages
}

#[test]
fn one_by_one() {
    let mut single = Terminal::open();
    let replies: Vec<_> = messages().iter().map(|message| single.message(message)).collect();
    let mut together = Terminal::open();
    let reply = together.pack(messages());
    assert_eq!(together, single);
    let sum = |count: fn(&px8::Answer) -> u32| replies.iter().map(|reply| count(&reply.answer)).sum::<u32>();
    assert_eq!(reply.answer.taken, sum(|answer| answer.taken));
    assert_eq!(reply.answer.accepted, sum(|answer| answer.accepted));
    assert_eq!(reply.answer.refused, sum(|answer| answer.refused));
    assert_eq!(reply.printed, replies.iter().flat_map(|reply| reply.printed.clone()).collect::<Vec<u8>>());
    let first = replies.iter().position(|reply| reply.answer.first != 0).unwrap();
    let (record, refusal) = reply.refusal().unwrap();
    assert_eq!((record as usize, Some(refusal)), (first + 1, replies[first].answer.refusal()));
}

#[test]
fn the_room_left_over() {
    let mut terminal = Terminal::open();
    let pack = px8::packed([&[27, 80][..], &[], &[27, 80]]);
    let reply = terminal.pack_with_room(&pack, 2 * COPY - 1);
    assert_eq!((reply.answer.accepted, reply.answer.first, reply.record), (1, px8::NO_ROOM, 3));
    assert_eq!(reply.printed.len(), COPY);
    assert_eq!(terminal.pack_with_room(&pack, 2 * COPY).printed.len(), 2 * COPY);
}

#[test]
fn an_empty_pack_does_nothing() {
    let open = Terminal::open();
    let stale =
        Terminal::resume(*open.settings(), *open.cells(), *open.layer(), [7; px8::SHOWN], *open.dots());
    let mut terminal = stale.clone();
    let none: [&[u8]; 0] = [];
    let reply = terminal.pack(none);
    assert_eq!((reply.answer.number, reply.answer.taken, reply.record), (0, 0, 0));
    assert_eq!(terminal, stale);
    let _ = terminal.pack([b""]);
    assert_eq!(terminal, open);
}

/// 1 cannot be met by a terminal: its stores are of their sizes.
#[test]
fn refused_packs() {
    let long = vec![65; 4097];
    let mut kind = px8::packed([&long]);
    kind[3] = 1;
    let rows: [(&[u8], u8); 6] = [
        (&vec![0; px8::PACK_MOST + 1], px8::PACK_TOO_LONG),
        (&[&kind[..], &[1, 0, 1]].concat(), px8::CUT_RECORD),
        (&kind[..4100], px8::CUT_RECORD),
        (&kind, px8::UNKNOWN_RECORD),
        (&px8::packed([&long]), px8::TOO_LONG),
        (&[], px8::UNSOUND),
    ];
    let open = Terminal::open();
    let unsound = Settings { step: 0, ..*open.settings() };
    let mut terminal = Terminal::resume(unsound, *open.cells(), *open.layer(), *open.shown(), *open.dots());
    let before = terminal.clone();
    for (pack, number) in rows {
        let reply = terminal.pack_bytes(pack);
        assert_eq!((reply.answer.number, reply.answer.taken, reply.record), (number, 0, 0));
        assert_eq!((&terminal, reply.refusal()), (&before, None));
    }
    let mut waiting = Terminal::open();
    let _ = waiting.piece(&[27]);
    assert_eq!(waiting.pack([b"A"]).answer.number, px8::BYTES_WAIT);
    assert_eq!(waiting.pack_bytes(&[]).answer.number, px8::BYTES_WAIT);
    assert_eq!(Terminal::open().pack([vec![65; 70_000]]).answer.number, px8::PACK_TOO_LONG);
}
