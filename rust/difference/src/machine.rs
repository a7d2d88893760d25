//! The proved library on another machine behind the same traits: a program that was started beside this one
//! (c/machine.c on a processor or its emulator, c/machine.mjs for WebAssembly) takes each call over a pipe, with all
//! that it lends, and gives back all that the call left. Settings and answers cross as c/px8.h lays them out.

use crate::layout::{answer_of, bytes_of, long, number, record_of, settings_of, ANSWER, SETTINGS};
use compare::screens::Screens;
use compare::traces::Repeats;
use compare::writes::{Reached, Writes};
use compare::Terminal;
use reference::differences::Record;
use reference::{Answer, Settings};
use std::io::{BufReader, BufWriter, Read, Write};
use std::process::{Child, ChildStdin, ChildStdout, Command, Stdio};

/// What a call can be lent: two inputs, cells, layer, shown screen, dots, and printer, output, list or buffer.
const PARTS: usize = 7;

/// The numbers by which c/machine.c knows the calls.
#[derive(Clone, Copy)]
enum Call {
    Opening,
    Message,
    Short,
    Piece,
    Closing,
    Pack,
    KeyText,
    Printed,
    Compare,
    FirstDifference,
    KeyRepeats,
    Write,
}

pub struct Machine {
    process: Child,
    to: BufWriter<ChildStdin>,
    from: BufReader<ChildStdout>,
}

/// What a call is given beside settings: a number, a place, and the bytes that it is lent.
#[derive(Default)]
struct Given<'a> {
    number: usize,
    place: usize,
    parts: [&'a [u8]; PARTS],
}

/// What it left.
struct Left {
    answer: [u8; ANSWER],
    settings: [u8; SETTINGS],
    parts: Vec<Vec<u8>>,
}

impl Machine {
    /// Starts the program of these words.
    pub fn start(words: &str) -> std::io::Result<Machine> {
        let mut words = words.split_whitespace();
        let program = words.next().unwrap_or_default();
        let mut process =
            Command::new(program).args(words).stdin(Stdio::piped()).stdout(Stdio::piped()).spawn()?;
        let to = BufWriter::with_capacity(1 << 17, process.stdin.take().expect("a pipe"));
        let from = BufReader::with_capacity(1 << 17, process.stdout.take().expect("a pipe"));
        Ok(Machine { process, to, from })
    }

    fn call(&mut self, call: Call, settings: &[u8; SETTINGS], given: Given) -> Left {
        self.try_call(call, settings, &given).expect("the machine answers")
    }

    fn try_call(&mut self, call: Call, settings: &[u8; SETTINGS], given: &Given) -> std::io::Result<Left> {
        self.to.write_all(&(call as u32).to_le_bytes())?;
        for part in given.parts {
            self.to.write_all(&u32::try_from(part.len()).expect("no such buffer").to_le_bytes())?;
        }
        self.to.write_all(&(given.number as u64).to_le_bytes())?;
        self.to.write_all(&(given.place as u64).to_le_bytes())?;
        self.to.write_all(settings)?;
        for part in given.parts {
            self.to.write_all(part)?;
        }
        self.to.flush()?;
        let mut left = Left { answer: [0; ANSWER], settings: [0; SETTINGS], parts: Vec::new() };
        self.from.read_exact(&mut left.answer)?;
        self.from.read_exact(&mut left.settings)?;
        for part in given.parts {
            let mut bytes = vec![0; part.len()];
            self.from.read_exact(&mut bytes)?;
            left.parts.push(bytes);
        }
        assert_eq!(left.parts[..2], given.parts[..2], "what is only read was altered");
        Ok(left)
    }

    /// A call with stores and, but for an opening and a closing, a printer buffer.
    fn on_stores(
        &mut self,
        call: Call,
        settings: &[u8; SETTINGS],
        number: usize,
        input: &[u8],
        stores: [&mut [u8]; 5],
    ) -> Left {
        let [cells, layer, shown, dots, printer] = stores;
        let parts = [input, &[], &*cells, &*layer, &*shown, &*dots, &*printer];
        let left = self.call(call, settings, Given { number, place: 0, parts });
        for (store, bytes) in [cells, layer, shown, dots, printer].into_iter().zip(&left.parts[2..]) {
            store.copy_from_slice(bytes);
        }
        left
    }
}

impl Drop for Machine {
    fn drop(&mut self) {
        // the program ends when its input does; one that does not is ended
        let _ = self.process.kill();
        let _ = self.process.wait();
    }
}

impl Terminal for Machine {
    fn name(&self) -> &str {
        "machine"
    }

    fn opening(
        &mut self,
        rule: usize,
        cells: &mut [u8],
        layer: &mut [u8],
        shown: &mut [u8],
        dots: &mut [u8],
    ) -> (Settings, u8) {
        let stores = [cells, layer, shown, dots, &mut []];
        let left = self.on_stores(Call::Opening, &[0xa5; SETTINGS], rule, &[], stores);
        (settings_of(&left.settings), left.answer[0])
    }

    fn message(
        &mut self,
        settings: Settings,
        message: &[u8],
        cells: &mut [u8],
        layer: &mut [u8],
        shown: &mut [u8],
        dots: &mut [u8],
        printer: &mut [u8],
    ) -> (Settings, Answer) {
        let stores = [cells, layer, shown, dots, printer];
        answered(&self.on_stores(Call::Message, &bytes_of(&settings), 0, message, stores))
    }

    fn message_short(
        &mut self,
        settings: Settings,
        message: &[u8],
        cells: &mut [u8],
        layer: &mut [u8],
        shown: &mut [u8],
        dots: &mut [u8],
        printer: &mut [u8],
    ) -> (Settings, Answer) {
        let stores = [cells, layer, shown, dots, printer];
        answered(&self.on_stores(Call::Short, &bytes_of(&settings), 0, message, stores))
    }

    fn piece(
        &mut self,
        settings: Settings,
        piece: &[u8],
        cells: &mut [u8],
        layer: &mut [u8],
        shown: &mut [u8],
        dots: &mut [u8],
        printer: &mut [u8],
    ) -> (Settings, Answer) {
        let stores = [cells, layer, shown, dots, printer];
        answered(&self.on_stores(Call::Piece, &bytes_of(&settings), 0, piece, stores))
    }

    fn closing(
        &mut self,
        settings: Settings,
        cells: &mut [u8],
        layer: &mut [u8],
        shown: &mut [u8],
        dots: &mut [u8],
    ) -> (Settings, Answer) {
        let stores = [cells, layer, shown, dots, &mut []];
        answered(&self.on_stores(Call::Closing, &bytes_of(&settings), 0, &[], stores))
    }

    fn pack(
        &mut self,
        settings: Settings,
        pack: &[u8],
        cells: &mut [u8],
        layer: &mut [u8],
        shown: &mut [u8],
        dots: &mut [u8],
        printer: &mut [u8],
    ) -> (Settings, Answer, u32) {
        let stores = [cells, layer, shown, dots, printer];
        let left = self.on_stores(Call::Pack, &bytes_of(&settings), 0, pack, stores);
        let (settings, answer) = answered(&left);
        (settings, answer, number(&left.answer, 32))
    }

    fn key_text(&mut self, settings: Settings, number: usize, text: &[u8]) -> (Settings, Answer) {
        let given = Given { number, parts: [text, &[], &[], &[], &[], &[], &[]], ..Given::default() };
        answered(&self.call(Call::KeyText, &bytes_of(&settings), given))
    }

    fn printed<'a>(&mut self, buffer: &'a [u8], count: usize) -> &'a [u8] {
        let given =
            Given { number: count, parts: [buffer, &[], &[], &[], &[], &[], &[]], ..Given::default() };
        let left = self.call(Call::Printed, &[0; SETTINGS], given);
        &buffer[..long(&left.answer, 0)]
    }
}

impl Screens for Machine {
    fn name(&self) -> &str {
        "machine"
    }

    fn compare(&mut self, first: &[u8], second: &[u8], list: &mut [Record]) -> (u8, usize) {
        let bytes: Vec<u8> = list.iter().flat_map(|r| [r.row, r.column, r.first, r.second]).collect();
        let given = Given { parts: [first, second, &[], &[], &[], &[], &bytes], ..Given::default() };
        let left = self.call(Call::Compare, &[0; SETTINGS], given);
        for (record, bytes) in list.iter_mut().zip(left.parts[6].chunks(4)) {
            *record = record_of(bytes);
        }
        (left.answer[0], long(&left.answer, 8))
    }

    fn first_difference(&mut self, first: &[u8], second: &[u8]) -> (u8, Option<Record>) {
        let given = Given { parts: [first, second, &[], &[], &[], &[], &[]], ..Given::default() };
        let left = self.call(Call::FirstDifference, &[0; SETTINGS], given);
        (left.answer[0], (left.answer[1] == 1).then(|| record_of(&left.answer[2..6])))
    }
}

impl Repeats for Machine {
    fn name(&self) -> &str {
        "machine"
    }

    fn key_repeats(&mut self, settings: Settings, trace: &[u8], output: &mut [u8]) -> (u8, usize) {
        let given = Given { parts: [trace, &[], &[], &[], &[], &[], output], ..Given::default() };
        let left = self.call(Call::KeyRepeats, &bytes_of(&settings), given);
        output.copy_from_slice(&left.parts[6]);
        (left.answer[0], long(&left.answer, 8))
    }
}

impl Writes for Machine {
    fn name(&self) -> &str {
        "machine"
    }

    fn write(
        &mut self,
        settings: Settings,
        second: u8,
        parameters: &[u8],
        buffer: &mut [u8],
        place: usize,
    ) -> Reached {
        let parts = [parameters, &[], &[], &[], &[], &[], &*buffer];
        let left =
            self.call(Call::Write, &bytes_of(&settings), Given { number: second.into(), place, parts });
        buffer.copy_from_slice(&left.parts[6]);
        (long(&left.answer, 0), left.answer[8], left.answer[9])
    }
}

fn answered(left: &Left) -> (Settings, Answer) {
    (settings_of(&left.settings), answer_of(&left.answer))
}
