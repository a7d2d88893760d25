//! Document 02, P12: a short message. What is printed goes to the glass at once, since
//! nothing else can change its place any more, but for an item after which all is
//! painted anyway; then only row 8 is painted behind it.

use crate::engine::Engine;
use crate::{judged, refused};
use reference::{Answer, Settings};

/// Row 8 of the shown screen.
const LAST_ROW: std::ops::Range<usize> = 560..640;

pub fn message_short(
    settings: &mut Settings,
    message: &[u8],
    cells: &mut [u8],
    layer: &mut [u8],
    shown: &mut [u8],
    dots: &mut [u8],
    printer: &mut [u8],
) -> Answer {
    let (stores, picture) = match judged(settings, message, cells, layer, shown, dots) {
        Ok(good) => good,
        Err(number) => return refused(number),
    };
    if settings.held > 0 {
        return refused(16);
    }
    let mut answer = Answer::default();
    let mut engine = Engine::new(settings, stores, printer, Shown { picture: Some(picture), wide: false });
    engine.serve::<false>(message, 0, &mut answer);
    match engine.glass.picture.take() {
        Some(picture) if engine.glass.wide => engine.paint(picture),
        Some(picture) => engine.paint_last_row(picture),
        None => {}
    }
    engine.save();
    answer
}

/// What an engine tells of while it serves.
pub trait Glass {
    /// Whether printed text is to be told of.
    const SHOWS: bool = false;

    /// Text was printed that is shown from this place on.
    fn show(&mut self, _at: usize, _text: &[u8], _secret: bool) {}

    /// A sequence was accepted, by its second byte.
    fn accepted(&mut self, _second: u8) {}

    /// More may have changed than what was printed.
    fn widen(&mut self) {}
}

/// Of the calls that paint all.
impl Glass for () {}

pub struct Shown<'a> {
    /// taken away for the painting at the end
    picture: Option<&'a mut [u8; 640]>,
    wide: bool,
}

impl Glass for Shown<'_> {
    const SHOWS: bool = true;

    fn show(&mut self, at: usize, text: &[u8], secret: bool) {
        let Some(picture) = &mut self.picture else { return };
        let places = &mut picture[at..at + text.len()];
        if secret {
            places.fill(b' ');
        } else {
            places.copy_from_slice(text);
        }
    }

    fn accepted(&mut self, second: u8) {
        self.wide |= WIDE[usize::from(second / 64)] >> (second % 64) & 1 == 1;
    }

    fn widen(&mut self) {
        self.wide = true;
    }
}

/// Sequences after which all is painted, by a bit each.
const WIDE: [u64; 4] = {
    let seconds = [42, 84, 89, 123, 125, 144, 145, 150, 151, 208, 209, 210, 211, 212, 213, 215];
    let mut bits = [0; 4];
    let mut at = 0;
    while at < seconds.len() {
        bits[seconds[at] / 64] |= 1 << (seconds[at] % 64);
        at += 1;
    }
    bits
};

impl Engine<'_, Shown<'_>> {
    fn paint_last_row(&self, picture: &mut [u8; 640]) {
        let row = &mut picture[LAST_ROW];
        if self.settings.secret == 1 {
            return row.fill(b' ');
        }
        if self.settings.display == 0 {
            row.copy_from_slice(&self.settings.texts);
        } else {
            self.last_row_of_cells(row);
        }
        let (marks, codes) = (&self.stores.marks[LAST_ROW], &self.stores.codes[LAST_ROW]);
        for ((place, &mark), &code) in row.iter_mut().zip(marks).zip(codes) {
            let keep = u8::from(mark != 0).wrapping_sub(1);
            *place = *place & keep | code & !keep;
        }
    }

    /// Row 8 where it shows the screens.
    fn last_row_of_cells(&self, row: &mut [u8]) {
        let line = |at: usize| &self.stores.cells[self.block(at - 1, at)];
        match self.settings.mode {
            0 | 3 => row.copy_from_slice(line(self.top + 7)),
            1 => {
                row[..39].copy_from_slice(line(self.top + 7));
                row[39..41].fill(b' ');
                row[41..].copy_from_slice(line(self.top + 15));
            }
            _ => {
                let m = usize::from(self.settings.columns1);
                let [first, second] = self.tops();
                let base = usize::from(self.settings.lines1) * m + (second + 6) * (79 - m);
                row[..m].copy_from_slice(&self.stores.cells[(first + 6) * m..(first + 7) * m]);
                row[m] = self.settings.boundary;
                row[m + 1..].copy_from_slice(&self.stores.cells[base..base + 79 - m]);
            }
        }
    }
}
