//! Document 02, P12: short messages, quicker. "Add a call that is the old one but
//! paints less": while it reads, it ticks off the places that it will have to paint,
//! and paints those, and no other, at its end.

use super::apply::Standing;
use super::calls::{obey, refused};
use super::picture::{cursor_place, picture, place};
use super::read::{read, Item};
use super::settings::{Answer, Settings, ROWS, SHOWN, WIDTH};

/// An accepted sequence of these may change places that no character is printed in,
/// so that all are painted; in mode 3 too, where some of them do nothing.
const WIDE: &[u8] = &[42, 84, 89, 123, 125, 144, 145, 150, 151, 208, 209, 210, 211, 212, 213, 215];

/// Refused as a message is, with its answer; served it is a message but for the
/// shown screen.
pub fn message_short(
    settings: Settings,
    message: &[u8],
    cells: &mut [u8],
    layer: &mut [u8],
    shown: &mut [u8],
    dots: &mut [u8],
    printer: &mut [u8],
) -> (Settings, Answer) {
    if let Some(number) = refused(&settings, message, cells, layer, shown, dots) {
        return (settings, Answer { number, ..Answer::default() });
    }
    if settings.held > 0 {
        return (settings, Answer { number: 16, ..Answer::default() });
    }
    let mut standing = Standing { settings, cells, layer, dots, printer, printed: 0 };
    let mut answer = Answer { taken: message.len() as u32, ..Answer::default() };
    let mut ticked = row_8();
    let mut offset = 0;
    while offset < message.len() {
        let (item, length) = read(&message[offset..], &standing.settings, standing.room());
        let before = standing.settings;
        obey(&mut standing, &mut answer, &item, offset);
        tick(&mut ticked, &item, &before, &standing.settings);
        offset += length;
    }
    for at in (0..SHOWN).filter(|&at| ticked[at]) {
        let (row, column) = (at / WIDTH + 1, at % WIDTH + 1);
        shown[at] = picture(&standing.settings, standing.cells, standing.layer, row, column);
    }
    (standing.settings, answer)
}

/// "Row 8 it always paints whole."
fn row_8() -> [bool; SHOWN] {
    let mut ticked = [false; SHOWN];
    ticked[place(ROWS, 1)..=place(ROWS, WIDTH)].fill(true);
    ticked
}

/// What an item adds: all places, that of the cell it printed in, or none.
fn tick(ticked: &mut [bool; SHOWN], item: &Item, before: &Settings, after: &Settings) {
    let wide = changes_more(item) || lifts(item, before) || top(before) != top(after);
    if wide {
        ticked.fill(true);
    } else if prints(item) {
        if let Some(at) = cursor_place(&stepped(before)) {
            ticked[at] = true;
        }
    }
}

/// Code 12 acts as 42. A refusal changes nothing.
fn changes_more(item: &Item) -> bool {
    match *item {
        Item::Code(code) => code == 12,
        Item::Sequence { second, .. } => WIDE.contains(&second),
        Item::Printed(_) | Item::Refusal { .. } => false,
    }
}

/// "A printed character is a printed byte or an accepted 37".
fn prints(item: &Item) -> bool {
    matches!(item, Item::Printed(_) | Item::Sequence { second: 37, .. })
}

/// Whether an item goes below the last line of the selected screen: code 10, a
/// character that first has to step there from the last column, or one that steps
/// there behind itself.
fn lifts(item: &Item, before: &Settings) -> bool {
    let screen = usize::from(before.selected);
    let here = before.places[screen];
    let in_last_column = usize::from(here.column) == before.columns(screen);
    let steps = match *item {
        Item::Code(code) => code == 10,
        _ if !prints(item) => false,
        _ if before.rule == 2 => here.waiting == 1,
        _ => in_last_column,
    };
    steps && usize::from(here.line) == before.lines(screen)
}

fn top(settings: &Settings) -> u8 {
    settings.places[usize::from(settings.selected)].top
}

/// With the cursor on the cell that the next character is stored in: behind the
/// late step, if one is due that lifts nothing.
fn stepped(before: &Settings) -> Settings {
    let mut stepped = *before;
    let here = &mut stepped.places[usize::from(before.selected)];
    if here.waiting == 1 {
        here.line += 1;
        here.column = 1;
    }
    stepped
}
