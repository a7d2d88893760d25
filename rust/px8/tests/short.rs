//! Short messages: on a painted terminal as messages; what is painted of a stale one;
//! every number, and nothing changed by a refused one.

use px8::{COPY, SHOWN, Settings, Terminal, WIDTH};

/// A terminal whose shown screen holds nothing of what stands.
fn stale(settings: Settings) -> Terminal {
    let open = Terminal::open();
    Terminal::resume(settings, *open.cells(), *open.layer(), [b'?'; SHOWN], *open.dots())
}

/// The places of rows 1 to 7 that a message paints; row 8 it has to paint whole.
fn painted(settings: Settings, message: &[u8]) -> Vec<usize> {
    let mut terminal = stale(settings);
    assert_eq!(terminal.message_short(message).answer.number, px8::SERVED);
    assert!(terminal.rows().last().unwrap().iter().all(|&code| code != b'?'));
    (0..SHOWN - WIDTH).filter(|&at| terminal.shown()[at] != b'?').collect()
}

fn at(row: usize, column: usize) -> usize {
    WIDTH * (row - 1) + column - 1
}

/// Every byte value, in messages of 1 to 20 bytes.
#[test]
fn on_a_painted_terminal_as_messages() {
    let (mut one, mut other) = (Terminal::open(), Terminal::open());
    let bytes: Vec<u8> = (0..6000u32).map(|n| (n * n / 3 + n * 7) as u8).collect();
    let mut rest = &bytes[..];
    for length in (1..=20).cycle() {
        let Some((message, after)) = rest.split_at_checked(length) else { break };
        assert_eq!(one.message(message), other.message_short(message));
        assert_eq!(one, other);
        rest = after;
    }
}

#[test]
fn the_places_of_printed_cells() {
    let open = *Terminal::open().settings();
    assert_eq!(painted(open, b"A"), [0]);
    assert_eq!(painted(open, &[65, 8, 66]), [0]);
    assert_eq!(painted(open, b"\x1b=\x22\x25A\x1b%\x05"), [at(3, 6), at(3, 7)]);
    assert_eq!(painted(open, &[10; 7]), []);
    assert_eq!(painted(open, b"\x1b=\x20\x6fAB"), [at(1, 80), at(2, 1)]);
    let mut late = *Terminal::open_with(2).unwrap().settings();
    (late.places[0].column, late.places[0].late) = (80, 1);
    assert_eq!(painted(late, b"A"), [at(2, 1)]);
}

#[test]
fn what_paints_all() {
    let mut open = *Terminal::open().settings();
    let items: [&[u8]; 9] = [
        &[10; 8],
        &[12],
        b"\x1b=\x37\x20",
        &[27, 84],
        &[27, 123],
        &[27, 144, 0, 2],
        &[27, 209],
        &[27, 210, 1, 1, 90],
        &[27, 211, 1],
    ];
    for item in items {
        assert_eq!(painted(open, item).len(), SHOWN - WIDTH, "{item:?}");
    }
    open.places[0] = px8::Place { line: 24, column: 80, top: 17, late: 0 };
    assert_eq!(painted(open, b"A").len(), SHOWN - WIDTH);
}

#[test]
fn a_key_text_is_seen_after_it() {
    let mut terminal = Terminal::open();
    let _ = terminal.message(&[27, 211, 0]);
    assert_eq!(terminal.key_text(1, b"TARE    ").number, px8::SERVED);
    assert!(!terminal.to_string().contains("TARE"));
    let _ = terminal.message_short(&[]);
    assert!(terminal.to_string().ends_with("8 TARE\n"));
}

#[test]
fn copies() {
    let mut terminal = Terminal::open();
    let reply = terminal.message_short(b"net\x1bP\rtare\x1bP");
    assert_eq!((reply.answer.printed, reply.printed.len()), (2 * COPY as u64, 2 * COPY));
    assert!(reply.printed.starts_with(b"net ") && reply.printed[COPY..].starts_with(b"tare "));
}

/// 1 cannot be met by a terminal: its stores are of their sizes.
#[test]
fn refused_short_messages() {
    let open = *Terminal::open().settings();
    let unsound = Settings { step: 0, ..open };
    let mut waiting = Terminal::open();
    let _ = waiting.piece(&[27]);
    let rows: [(Settings, &[u8], u8); 4] = [
        (unsound, &[65; 4097], px8::TOO_LONG),
        (unsound, &[], px8::UNSOUND),
        (*waiting.settings(), &[65; 4097], px8::TOO_LONG),
        (*waiting.settings(), &[], px8::BYTES_WAIT),
    ];
    for (settings, message, number) in rows {
        let mut terminal = stale(settings);
        let reply = terminal.message_short(message);
        assert_eq!((reply.answer.number, reply.answer.taken), (number, 0));
        assert_eq!(terminal, stale(settings));
    }
    assert_eq!(stale(open).message_short(&[65; 4096]).answer.number, px8::SERVED);
}

#[test]
fn wrong_sizes() {
    let settings = *Terminal::open().settings();
    for store in 0..4 {
        let mut stores = [px8::CELLS, px8::LAYER, px8::SHOWN, px8::DOTS].map(|size| vec![7; size]);
        stores[store].pop();
        let before = stores.clone();
        let [cells, layer, shown, dots] = &mut stores;
        let mut after = settings;
        let answer = px8::message_short(&mut after, b"A", cells, layer, shown, dots, &mut []);
        assert_eq!((after, answer.number), (settings, px8::STORE_SIZE));
        assert_eq!(stores, before);
    }
}
