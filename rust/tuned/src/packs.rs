//! Document 02, P6: a pack. It is looked through once, then served as one line of
//! messages over the same screen, and painted at its end.

use crate::engine::{Engine, Stores};
use crate::sound;
use reference::{Answer, Settings};

pub fn pack(
    settings: &mut Settings,
    pack: &[u8],
    cells: &mut [u8],
    layer: &mut [u8],
    shown: &mut [u8],
    dots: &mut [u8],
    printer: &mut [u8],
) -> (Answer, u32) {
    let refused = |number: u8| (Answer { number, ..Answer::default() }, 0);
    let (Some(stores), Ok(picture)) = (Stores::new(cells, layer, dots), shown.try_into()) else {
        return refused(1);
    };
    match scan(pack) {
        0 if !sound(settings) => return refused(3),
        0 if settings.held > 0 => return refused(16),
        0 if pack.is_empty() => return refused(0),
        0 => {}
        number => return refused(number),
    }
    let mut engine = Engine::new(settings, stores, printer, ());
    let (mut answer, mut taken, mut record) = (Answer::default(), 0, 0);
    for (number, body) in bodies(pack) {
        let clean = answer.refused == 0;
        engine.serve::<false>(body, 0, &mut answer);
        taken += answer.taken;
        if clean && answer.refused > 0 {
            record = number;
        }
    }
    answer.taken = taken;
    engine.paint(picture);
    engine.save();
    (answer, record)
}

/// The first record and what is behind it; none if there is no whole one.
fn next(rest: &[u8]) -> Option<(u16, &[u8], &[u8])> {
    let (&[low, high, kind, kind_high], after) = rest.split_first_chunk()?;
    let (body, after) = after.split_at_checked(u16::from_le_bytes([low, high]).into())?;
    Some((u16::from_le_bytes([kind, kind_high]), body, after))
}

/// 0, or 19, 20, 21 or 2.
fn scan(pack: &[u8]) -> u8 {
    let (mut rest, mut unknown, mut long) = (pack, false, false);
    while let Some((kind, body, after)) = next(rest) {
        unknown |= kind != 1;
        long |= body.len() > 4096;
        rest = after;
    }
    match () {
        _ if pack.len() > 60_000 => 19,
        _ if !rest.is_empty() => 20,
        _ if unknown => 21,
        _ if long => 2,
        _ => 0,
    }
}

/// The bodies with their numbers.
fn bodies(mut rest: &[u8]) -> impl Iterator<Item = (u32, &[u8])> {
    (1..).map_while(move |number| {
        let (_, body, after) = next(rest)?;
        rest = after;
        Some((number, body))
    })
}
