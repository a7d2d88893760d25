//! What document 02, P12, says of a short message, asked of each one that is served:
//! the sentences themselves, beside what two implementations make of them.

use reference::apply::Standing;
use reference::picture::{paint, place, source, Source};
use reference::read::{read, Item};
use reference::settings::{ROWS, SHOWN, WIDTH};
use reference::{Answer, Settings};
use std::collections::BTreeSet;

/// Settings and stores, before a call or after it.
pub struct Moment<'a> {
    pub settings: &'a Settings,
    /// cells, layer, shown screen, dots
    pub stores: &'a [Vec<u8>; 4],
}

impl Moment<'_> {
    fn shown(&self) -> &[u8] {
        &self.stores[2]
    }

    /// All 640 places of the picture of what stands.
    fn picture(&self) -> Vec<u8> {
        let mut picture = vec![0; SHOWN];
        paint(self.settings, &self.stores[0], &self.stores[1], &mut picture);
        picture
    }
}

/// A short message that was served.
pub struct Served<'a> {
    pub message: &'a [u8],
    /// what the printer buffer held before
    pub buffer: &'a [u8],
    pub before: Moment<'a>,
    pub after: Moment<'a>,
    pub answer: Answer,
    pub printer: &'a [u8],
}

/// Row 8's first place.
const ROW_8: usize = (ROWS - 1) * WIDTH;

impl Served<'_> {
    /// None of the sentences is broken, or one by name.
    pub fn keeps_the_sentences(&self) -> Result<(), String> {
        let (old, new) = (self.before.picture(), self.after.picture());
        self.old_call(&old)?;
        let (given, left) = (self.before.shown(), self.after.shown());
        for at in 0..SHOWN {
            let unaltered = left[at] == given[at] && old[at] == new[at];
            if left[at] != new[at] && !unaltered {
                return Err(format!("short message: place {at} is neither the new picture nor unaltered"));
            }
            if at >= ROW_8 && left[at] != new[at] {
                return Err(format!("short message: place {at} of row 8 is not painted"));
            }
        }
        let Some(printed) = self.printed_alone() else { return Ok(()) };
        match (0..ROW_8).find(|at| left[*at] != given[*at] && !printed.contains(at)) {
            Some(at) => Err(format!("short message: place {at} is altered and nothing was printed there")),
            None => Ok(()),
        }
    }

    /// "a call that is the old one but paints less", and "from a screen true in rows
    /// 1 to 7 it ends as the old call does".
    fn old_call(&self, picture: &[u8]) -> Result<(), String> {
        let mut stores = self.before.stores.clone();
        let mut printer = self.buffer.to_vec();
        let [cells, layer, shown, dots] = &mut stores;
        let (after, answer) =
            reference::message(*self.before.settings, self.message, cells, layer, shown, dots, &mut printer);
        let same = [0, 1, 3].iter().all(|&store| stores[store] == self.after.stores[store]);
        if (after, answer) != (*self.after.settings, self.answer) || !same || printer != self.printer {
            return Err("short message: not the old call's answer, settings, stores or copies".to_string());
        }
        let was_true = self.before.shown()[..ROW_8] == picture[..ROW_8];
        if was_true && stores[2] != self.after.shown() {
            return Err("short message: from a true screen it does not end as the old call".to_string());
        }
        Ok(())
    }

    /// "A message of printed bytes and codes 8, 10 and 13 alone that lifts nothing and
    /// moves no top": the places of the cells that it prints; none of any other message.
    fn printed_alone(&self) -> Option<BTreeSet<usize>> {
        if !self.message.iter().all(|byte| matches!(byte, 8 | 10 | 13 | 32..)) {
            return None;
        }
        let [mut cells, mut layer, _, mut dots] = self.before.stores.clone();
        let (cells, layer, dots) = (&mut cells[..], &mut layer[..], &mut dots[..]);
        let settings = *self.before.settings;
        let mut standing = Standing { settings, cells, layer, dots, printer: &mut [], printed: 0 };
        let mut places = BTreeSet::new();
        for at in 0..self.message.len() {
            let before = standing.settings;
            let (item, _) = read(&self.message[at..], &before, 0);
            standing.apply(&item);
            if lifted_or_moved(&item, &before, &standing.settings) {
                return None;
            }
            if let Item::Printed(_) = item {
                places.extend(shown_at(&before));
            }
        }
        Some(places)
    }
}

/// Whether the printed byte goes to the next line, before itself or behind itself.
fn steps(before: &Settings) -> bool {
    let screen = usize::from(before.selected);
    match before.rule {
        1 => usize::from(before.places[screen].column) == before.columns(screen),
        _ => before.places[screen].waiting == 1,
    }
}

/// An item that goes down a line and whose cursor is in the line it was in has lifted
/// the screen.
fn lifted_or_moved(item: &Item, before: &Settings, after: &Settings) -> bool {
    let screen = usize::from(before.selected);
    let down = match item {
        Item::Code(code) => *code == 10,
        _ => steps(before),
    };
    let moved = (0..2).any(|screen| before.places[screen].top != after.places[screen].top);
    moved || down && before.places[screen].line == after.places[screen].line
}

/// The place at which the next byte's cell is shown, if it is: looked for in the whole
/// picture. What lifts or moves a top is not asked.
fn shown_at(before: &Settings) -> Option<usize> {
    let screen = usize::from(before.selected);
    let here = before.places[screen];
    let (line, column) = match here.waiting {
        1 => (here.line + 1, 1),
        _ => (here.line, here.column),
    };
    let cell = Source::Cell { screen, line: line.into(), column: column.into() };
    let rows = (1..=ROWS).flat_map(|row| (1..=WIDTH).map(move |column| (row, column)));
    let mut places = rows.filter(|&(row, column)| source(before, row, column) == cell);
    places.next().map(|(row, column)| place(row, column))
}
