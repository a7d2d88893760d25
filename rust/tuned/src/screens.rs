//! Document 02, P4, by the bytes in their order.

use reference::differences::Record;

/// The places that differ, in order.
fn places<'a>(first: &'a [u8], second: &'a [u8]) -> impl Iterator<Item = Record> + 'a {
    let pairs = first.iter().zip(second).enumerate().filter(|(_, (one, other))| one != other);
    pairs.map(|(at, (&first, &second))| {
        let (row, column) = ((at / 80 + 1) as u8, (at % 80 + 1) as u8);
        Record { row, column, first, second }
    })
}

pub fn compare(first: &[u8], second: &[u8], list: &mut [Record]) -> (u8, usize) {
    if (first.len(), second.len()) != (640, 640) {
        return (1, 0);
    }
    let count = places(first, second).count();
    let Some(front) = list.get_mut(..count) else {
        return (18, 0);
    };
    for (record, place) in front.iter_mut().zip(places(first, second)) {
        *record = place;
    }
    (0, count)
}

pub fn first_difference(first: &[u8], second: &[u8]) -> (u8, Option<Record>) {
    match (first.len(), second.len()) {
        (640, 640) => (0, places(first, second).next()),
        _ => (1, None),
    }
}
