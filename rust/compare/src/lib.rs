//! Comparison of two implementations of documents 01 and 02 on random lists
//! of calls. An implementation is anything behind `Terminal`; the tools of
//! document 02 that stand beside it have a trait each.
//!
//! - `random`: the seeded source of numbers
//! - `generate`: starts, settings, messages and calls
//! - `play`: plays the lists on both sides and looks for a difference
//! - `coverage`: counts what the lists reached
//! - `short`: what document 02 says of a short message, asked of each that is served
//! - `report`: a whole comparison with its words, for a program's main
//! - `vectors`: the named cases
//! - `streams`: closed streams against one uncut reading
//! - `secrecy`: pairs of runs in secret mode, of which nothing may be seen
//! - `screens`: the comparison of two screens, with a trait of its own
//! - `traces`: key repeats, with a trait of its own
//! - `writes`: the sequences written, with a trait of its own
//! - `classes`: counts by name

pub mod classes;
pub mod coverage;
pub mod generate;
pub mod play;
pub mod random;
pub mod report;
pub mod screens;
pub mod secrecy;
pub mod short;
pub mod streams;
pub mod traces;
pub mod vectors;
pub mod writes;

pub use broken::{Functions, BROKEN, BROKEN_SCREENS, BROKEN_TRACES, BROKEN_WRITES};
use reference::{Answer, Settings};

/// An implementation of the terminal's calls on plain slices.
#[allow(clippy::too_many_arguments)] // the stores come one by one, as in C
pub trait Terminal {
    fn name(&self) -> &str;

    fn opening(
        &mut self,
        rule: usize,
        cells: &mut [u8],
        layer: &mut [u8],
        shown: &mut [u8],
        dots: &mut [u8],
    ) -> (Settings, u8);

    fn message(
        &mut self,
        settings: Settings,
        message: &[u8],
        cells: &mut [u8],
        layer: &mut [u8],
        shown: &mut [u8],
        dots: &mut [u8],
        printer: &mut [u8],
    ) -> (Settings, Answer);

    fn message_short(
        &mut self,
        settings: Settings,
        message: &[u8],
        cells: &mut [u8],
        layer: &mut [u8],
        shown: &mut [u8],
        dots: &mut [u8],
        printer: &mut [u8],
    ) -> (Settings, Answer);

    fn piece(
        &mut self,
        settings: Settings,
        piece: &[u8],
        cells: &mut [u8],
        layer: &mut [u8],
        shown: &mut [u8],
        dots: &mut [u8],
        printer: &mut [u8],
    ) -> (Settings, Answer);

    fn closing(
        &mut self,
        settings: Settings,
        cells: &mut [u8],
        layer: &mut [u8],
        shown: &mut [u8],
        dots: &mut [u8],
    ) -> (Settings, Answer);

    /// Behind the answer the record of the first refusal.
    fn pack(
        &mut self,
        settings: Settings,
        pack: &[u8],
        cells: &mut [u8],
        layer: &mut [u8],
        shown: &mut [u8],
        dots: &mut [u8],
        printer: &mut [u8],
    ) -> (Settings, Answer, u32);

    fn key_text(&mut self, settings: Settings, number: usize, text: &[u8]) -> (Settings, Answer);

    fn printed<'a>(&mut self, buffer: &'a [u8], count: usize) -> &'a [u8];
}

pub const REFERENCE: Functions = Functions {
    name: "reference",
    opening: reference::opening,
    message: reference::message,
    message_short: reference::message_short,
    piece: reference::piece,
    closing: reference::closing,
    pack: reference::pack,
    key_text: reference::key_text,
    printed: reference::printed,
};

/// The tuned version's settings are lent: here they go in and come back.
pub const TUNED: Functions = Functions {
    name: "tuned",
    opening: tuned::opening,
    message: |mut settings, message, cells, layer, shown, dots, printer| {
        let answer = tuned::message(&mut settings, message, cells, layer, shown, dots, printer);
        (settings, answer)
    },
    message_short: |mut settings, message, cells, layer, shown, dots, printer| {
        let answer = tuned::message_short(&mut settings, message, cells, layer, shown, dots, printer);
        (settings, answer)
    },
    piece: |mut settings, piece, cells, layer, shown, dots, printer| {
        let answer = tuned::piece(&mut settings, piece, cells, layer, shown, dots, printer);
        (settings, answer)
    },
    closing: |mut settings, cells, layer, shown, dots| {
        let answer = tuned::closing(&mut settings, cells, layer, shown, dots);
        (settings, answer)
    },
    pack: |mut settings, pack, cells, layer, shown, dots, printer| {
        let (answer, record) = tuned::pack(&mut settings, pack, cells, layer, shown, dots, printer);
        (settings, answer, record)
    },
    key_text: |mut settings, number, text| {
        let answer = tuned::key_text(&mut settings, number, text);
        (settings, answer)
    },
    printed: tuned::printed,
};

impl Terminal for Functions {
    fn name(&self) -> &str {
        self.name
    }

    fn opening(
        &mut self,
        rule: usize,
        cells: &mut [u8],
        layer: &mut [u8],
        shown: &mut [u8],
        dots: &mut [u8],
    ) -> (Settings, u8) {
        (self.opening)(rule, cells, layer, shown, dots)
    }

    fn message(
        &mut self,
        settings: Settings,
        message: &[u8],
        cells: &mut [u8],
        layer: &mut [u8],
        shown: &mut [u8],
        dots: &mut [u8],
        printer: &mut [u8],
    ) -> (Settings, Answer) {
        (self.message)(settings, message, cells, layer, shown, dots, printer)
    }

    fn message_short(
        &mut self,
        settings: Settings,
        message: &[u8],
        cells: &mut [u8],
        layer: &mut [u8],
        shown: &mut [u8],
        dots: &mut [u8],
        printer: &mut [u8],
    ) -> (Settings, Answer) {
        (self.message_short)(settings, message, cells, layer, shown, dots, printer)
    }

    fn piece(
        &mut self,
        settings: Settings,
        piece: &[u8],
        cells: &mut [u8],
        layer: &mut [u8],
        shown: &mut [u8],
        dots: &mut [u8],
        printer: &mut [u8],
    ) -> (Settings, Answer) {
        (self.piece)(settings, piece, cells, layer, shown, dots, printer)
    }

    fn closing(
        &mut self,
        settings: Settings,
        cells: &mut [u8],
        layer: &mut [u8],
        shown: &mut [u8],
        dots: &mut [u8],
    ) -> (Settings, Answer) {
        (self.closing)(settings, cells, layer, shown, dots)
    }

    fn pack(
        &mut self,
        settings: Settings,
        pack: &[u8],
        cells: &mut [u8],
        layer: &mut [u8],
        shown: &mut [u8],
        dots: &mut [u8],
        printer: &mut [u8],
    ) -> (Settings, Answer, u32) {
        (self.pack)(settings, pack, cells, layer, shown, dots, printer)
    }

    fn key_text(&mut self, settings: Settings, number: usize, text: &[u8]) -> (Settings, Answer) {
        (self.key_text)(settings, number, text)
    }

    fn printed<'a>(&mut self, buffer: &'a [u8], count: usize) -> &'a [u8] {
        (self.printed)(buffer, count)
    }
}
