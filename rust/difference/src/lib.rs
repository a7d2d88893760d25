//! The proved library behind `compare::Terminal`, so that it is compared
//! with the reference like any other implementation.

mod from_board;
mod layout;
pub mod machine;

use compare::screens::Screens;
use compare::traces::Repeats;
use compare::vectors::{play, play_on, recording, Case};
use compare::writes::{Reached, Writes};
use compare::Terminal;
pub use from_board::settings_from_board;
use reference::differences::Record;
use reference::{Answer, Place, Settings};

/// The archive's calls. The types of both sides have the same fields;
/// they are carried over one by one, so that no layout is taken on trust.
pub struct Board;

impl Terminal for Board {
    fn name(&self) -> &str {
        "board"
    }

    fn opening(
        &mut self,
        rule: usize,
        cells: &mut [u8],
        layer: &mut [u8],
        shown: &mut [u8],
        dots: &mut [u8],
    ) -> (Settings, u8) {
        let (settings, number) = px8::opening(rule, cells, layer, shown, dots);
        (settings_from_board(&settings), number)
    }

    fn message(
        &mut self,
        settings: Settings,
        message: &[u8],
        cells: &mut [u8],
        layer: &mut [u8],
        shown: &mut [u8],
        dots: &mut [u8],
        printer: &mut [u8],
    ) -> (Settings, Answer) {
        let mut lent = settings_to_board(&settings);
        let answer = px8::message(&mut lent, message, cells, layer, shown, dots, printer);
        (settings_from_board(&lent), answer_from_board(&answer))
    }

    fn message_short(
        &mut self,
        settings: Settings,
        message: &[u8],
        cells: &mut [u8],
        layer: &mut [u8],
        shown: &mut [u8],
        dots: &mut [u8],
        printer: &mut [u8],
    ) -> (Settings, Answer) {
        let mut lent = settings_to_board(&settings);
        let answer = px8::message_short(&mut lent, message, cells, layer, shown, dots, printer);
        (settings_from_board(&lent), answer_from_board(&answer))
    }

    fn piece(
        &mut self,
        settings: Settings,
        piece: &[u8],
        cells: &mut [u8],
        layer: &mut [u8],
        shown: &mut [u8],
        dots: &mut [u8],
        printer: &mut [u8],
    ) -> (Settings, Answer) {
        let mut lent = settings_to_board(&settings);
        let answer = px8::piece(&mut lent, piece, cells, layer, shown, dots, printer);
        (settings_from_board(&lent), answer_from_board(&answer))
    }

    fn closing(
        &mut self,
        settings: Settings,
        cells: &mut [u8],
        layer: &mut [u8],
        shown: &mut [u8],
        dots: &mut [u8],
    ) -> (Settings, Answer) {
        let mut lent = settings_to_board(&settings);
        let answer = px8::closing(&mut lent, cells, layer, shown, dots);
        (settings_from_board(&lent), answer_from_board(&answer))
    }

    fn pack(
        &mut self,
        settings: Settings,
        pack: &[u8],
        cells: &mut [u8],
        layer: &mut [u8],
        shown: &mut [u8],
        dots: &mut [u8],
        printer: &mut [u8],
    ) -> (Settings, Answer, u32) {
        let mut lent = settings_to_board(&settings);
        let (answer, record) = px8::pack(&mut lent, pack, cells, layer, shown, dots, printer);
        (settings_from_board(&lent), answer_from_board(&answer), record)
    }

    fn key_text(&mut self, settings: Settings, number: usize, text: &[u8]) -> (Settings, Answer) {
        let mut lent = settings_to_board(&settings);
        let answer = px8::key_text(&mut lent, number, text);
        (settings_from_board(&lent), answer_from_board(&answer))
    }

    fn printed<'a>(&mut self, buffer: &'a [u8], count: usize) -> &'a [u8] {
        px8::printed(buffer, count as u64)
    }
}

impl Screens for Board {
    fn name(&self) -> &str {
        "board"
    }

    fn compare(&mut self, first: &[u8], second: &[u8], list: &mut [Record]) -> (u8, usize) {
        let mut records: Vec<px8::Difference> = list.iter().map(record_to_board).collect();
        let answer = match px8::compare(first, second, &mut records) {
            Ok(count) => (0, count),
            Err(refused) => (refused.number(), 0),
        };
        for (record, board) in list.iter_mut().zip(&records) {
            *record = record_from_board(board);
        }
        answer
    }

    fn first_difference(&mut self, first: &[u8], second: &[u8]) -> (u8, Option<Record>) {
        match px8::first_difference(first, second) {
            Ok(found) => (0, found.as_ref().map(record_from_board)),
            Err(refused) => (refused.number(), None),
        }
    }
}

fn record_to_board(r: &Record) -> px8::Difference {
    px8::Difference { row: r.row, column: r.column, first: r.first, second: r.second }
}

fn record_from_board(d: &px8::Difference) -> Record {
    Record { row: d.row, column: d.column, first: d.first, second: d.second }
}

impl Repeats for Board {
    fn name(&self) -> &str {
        "board"
    }

    fn key_repeats(&mut self, settings: Settings, trace: &[u8], output: &mut [u8]) -> (u8, usize) {
        let repeats = px8::key_repeats(&settings_to_board(&settings), trace, output);
        (repeats.number, repeats.count as usize)
    }
}

impl Writes for Board {
    fn name(&self) -> &str {
        "board"
    }

    fn write(
        &mut self,
        settings: Settings,
        second: u8,
        parameters: &[u8],
        buffer: &mut [u8],
        place: usize,
    ) -> Reached {
        let reached = px8::write(&settings_to_board(&settings), second, parameters, buffer, place);
        (reached.place, reached.number, reached.parameter)
    }
}

/// The archive's writer through its names: what has no name is left to the call by
/// numbers.
pub struct NamedBoard;

impl Writes for NamedBoard {
    fn name(&self) -> &str {
        "board, by names"
    }

    fn write(
        &mut self,
        settings: Settings,
        second: u8,
        parameters: &[u8],
        buffer: &mut [u8],
        place: usize,
    ) -> Reached {
        let Some(sequence) = px8::Sequence::of(second, parameters) else {
            return Board.write(settings, second, parameters, buffer, place);
        };
        let mut writer = px8::Writer::at(buffer, place);
        match writer.write(&settings_to_board(&settings), sequence) {
            Ok(()) => (writer.place(), 0, 0),
            Err(refused) => (writer.place(), refused.number, refused.parameter),
        }
    }
}

pub fn settings_to_board(s: &Settings) -> px8::Settings {
    let place = |p: Place| px8::Place { line: p.line, column: p.column, top: p.top, late: p.waiting };
    let keys = &s.keys;
    px8::Settings {
        mode: s.mode,
        lines1: s.lines1,
        lines2: s.lines2,
        columns1: s.columns1,
        columns2: s.columns2,
        boundary: s.boundary,
        selected: s.selected,
        places: s.places.map(place),
        tracking: s.tracking,
        step: s.step,
        secret: s.secret,
        cursor: s.cursor,
        display: s.display,
        kind: s.kind,
        keys: px8::Keys {
            leds: keys.leds,
            charset: keys.charset,
            strings: keys.strings,
            repeat: keys.repeat,
            delay: keys.delay,
            interval: keys.interval,
            shift: keys.shift,
            arrows: keys.arrows,
        },
        patterns: s.patterns,
        waiting: s.waiting,
        held: s.held,
        count: s.count,
        texts: s.texts,
        marks: marks_to_board(&s.marks),
        rule: s.rule,
    }
}

/// Bit l − 1 of a screen's number is byte l − 1 of the reference's 48. Of bytes that
/// are neither 0 nor 1, which have no bit, the first of a screen is carried behind the
/// 48 bits: the byte, then its place.
pub(crate) fn marks_to_board(marks: &[u8; 96]) -> [u64; 2] {
    [0, 1].map(|screen| {
        let own = &marks[48 * screen..][..48];
        let bits = (0..48).fold(0, |all, at| all | u64::from(own[at] == 1) << at);
        let other = own.iter().position(|&mark| mark > 1);
        other.map_or(bits, |at| bits | u64::from(own[at]) << 48 | (at as u64) << 56)
    })
}

pub fn answer_from_board(answer: &px8::Answer) -> Answer {
    Answer {
        number: answer.number,
        taken: answer.taken,
        accepted: answer.accepted,
        refused: answer.refused,
        first: answer.first,
        offset: answer.offset,
        parameter: answer.parameter,
        printed: answer.printed as usize,
    }
}

/// Plays a named case on both sides. A difference is told by the first line
/// of text in which they part.
pub fn case_difference(terminal: &mut dyn Terminal, case: &Case) -> Option<String> {
    let bytes = recording(std::slice::from_ref(case));
    let expected = play(&bytes).expect("a case's recording is good");
    let found = play_on(terminal, &bytes).expect("a case's recording is good");
    if expected == found {
        return None;
    }
    let mut pairs = expected.lines().zip(found.lines());
    let (one, other) = pairs.find(|(one, other)| one != other).unwrap_or(("its end", "its end"));
    Some(format!("case {}\n  reference: {one}\n  {}: {other}", case.name, terminal.name()))
}
