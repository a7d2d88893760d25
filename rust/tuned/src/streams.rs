//! Document 02, P1: pieces and closings. Only a sequence that waits is put
//! together in a buffer of its own; the rest is read where it lies.

use crate::engine::Engine;
use crate::sequences::unfinished;
use crate::{judged, refused};
use reference::{Answer, Settings};

const LIMIT: u32 = 1_000_000_000;
/// The longest sequence.
const LONGEST: usize = 13;

pub fn sound(s: &Settings) -> bool {
    let held = usize::from(s.held);
    if held == 0 {
        return s.waiting == [0; 12] && s.count <= LIMIT;
    }
    held <= 12
        && s.held as u32 <= s.count
        && s.count <= LIMIT
        && s.waiting[0] == 27
        && unfinished(&s.waiting[..held])
        && s.waiting[held..].iter().all(|&byte| byte == 0)
}

pub fn piece(
    settings: &mut Settings,
    piece: &[u8],
    cells: &mut [u8],
    layer: &mut [u8],
    shown: &mut [u8],
    dots: &mut [u8],
    printer: &mut [u8],
) -> Answer {
    let (stores, picture) = match judged(settings, piece, cells, layer, shown, dots) {
        Ok(good) => good,
        Err(number) => return refused(number),
    };
    let length = piece.len() as u32;
    let (held, count) = (settings.held, settings.count);
    if length > LIMIT - count {
        return refused(15);
    }
    let mut joined = [0; 12 + LONGEST];
    let (line, taken) = join(settings, piece, &mut joined);
    let mut answer = Answer::default();
    let mut engine = Engine::new(settings, stores, printer, ());
    let still = !line.is_empty() && unfinished(line);
    let start = if line.is_empty() || still {
        taken
    } else {
        engine.from = count - u32::from(held);
        engine.escape(line, 0, &mut answer) - usize::from(held)
    };
    engine.from = count;
    let stop = engine.serve::<true>(piece, start, &mut answer);
    engine.paint(picture);
    engine.save();
    wait(settings, if still { line } else { &piece[stop..] }, count + length);
    answer
}

/// What waits with as much of the piece as a sequence can need, and how much
/// that is; nothing if nothing waits.
fn join<'a>(settings: &Settings, piece: &[u8], joined: &'a mut [u8; 25]) -> (&'a [u8], usize) {
    let held = usize::from(settings.held);
    if held == 0 {
        return (&[], 0);
    }
    let taken = piece.len().min(LONGEST);
    joined[..held].copy_from_slice(&settings.waiting[..held]);
    joined[held..held + taken].copy_from_slice(&piece[..taken]);
    (&joined[..held + taken], taken)
}

fn wait(settings: &mut Settings, bytes: &[u8], count: u32) {
    settings.waiting = [0; 12];
    settings.waiting[..bytes.len()].copy_from_slice(bytes);
    settings.held = bytes.len() as u8;
    settings.count = count;
}

pub fn closing(
    settings: &mut Settings,
    cells: &mut [u8],
    layer: &mut [u8],
    shown: &mut [u8],
    dots: &mut [u8],
) -> Answer {
    let (stores, picture) = match judged(settings, &[], cells, layer, shown, dots) {
        Ok(good) => good,
        Err(number) => return refused(number),
    };
    let (line, held, count) = (settings.waiting, settings.held, settings.count);
    let mut answer = Answer::default();
    let mut engine = Engine::new(settings, stores, &mut [], ());
    engine.from = count - u32::from(held);
    engine.serve::<false>(&line[..usize::from(held)], 0, &mut answer);
    engine.paint(picture);
    engine.save();
    wait(settings, &[], 0);
    answer.taken = 0;
    answer
}
