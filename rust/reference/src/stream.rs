//! Document 02, P1: a stream, read byte by byte as it comes. All that is
//! remembered from byte to byte is the open sequence and which of its bytes
//! is next; what is open at a piece's end waits.

use super::read::{alone, judged, length, refusal, Item, ESC};
use super::settings::{Settings, LONGEST_STREAM, LONGEST_WAIT};

/// Which byte comes next.
#[derive(Clone, Copy, Debug, PartialEq, Eq)]
pub enum Next {
    /// No sequence is open: an item by itself, or the ESC that opens one.
    First,
    /// ESC came: the byte that says which sequence it is.
    Second,
    /// 27, 208 came: the mode byte, which says how many follow it.
    Mode,
    /// A parameter, and so many are still to come behind it.
    Parameter { behind: usize },
}

impl Next {
    /// What comes after this byte; `First` if it is the last of an item.
    fn after(self, byte: u8) -> Next {
        match self {
            Next::First if byte == ESC => Next::Second,
            Next::First => Next::First,
            Next::Second if byte == 208 => Next::Mode,
            // a byte that is not in the list has nothing behind it
            Next::Second => Next::parameters(length(byte, None).unwrap_or(2) - 2),
            Next::Mode => Next::parameters(length(208, Some(byte)).unwrap_or(3) - 3),
            Next::Parameter { behind } => Next::parameters(behind),
        }
    }

    fn parameters(count: usize) -> Next {
        match count {
            0 => Next::First,
            _ => Next::Parameter { behind: count - 1 },
        }
    }

    /// What comes after an open sequence with these bytes (after none of them:
    /// a first byte); none if they are anything else.
    fn after_open(bytes: &[u8]) -> Option<Next> {
        bytes.iter().try_fold(Next::First, |next, &byte| {
            let after = next.after(byte);
            (after != Next::First).then_some(after)
        })
    }
}

/// The stream at a byte.
pub struct Line {
    pub next: Next,
    /// the bytes of the open sequence, or else of the last item
    pub bytes: Vec<u8>,
    /// the stream's bytes so far
    pub count: usize,
}

impl Line {
    /// As sound settings hold it.
    pub fn of(settings: &Settings) -> Line {
        let bytes = waits(settings).to_vec();
        let next = Next::after_open(&bytes).unwrap_or(Next::First);
        Line { next, bytes, count: settings.count as usize }
    }

    /// Takes a byte: the item that it ends, if it ends one, and where in the
    /// stream that begins.
    pub fn take(&mut self, byte: u8, settings: &Settings, room: usize) -> Option<(Item<'_>, usize)> {
        if self.next == Next::First {
            self.bytes.clear();
        }
        self.bytes.push(byte);
        self.count += 1;
        self.next = self.next.after(byte);
        if self.next != Next::First {
            return None;
        }
        let item = match self.bytes[..] {
            [_, second, ref parameters @ ..] => judged(second, parameters, settings, room),
            _ => alone(byte),
        };
        Some((item, self.count - self.bytes.len()))
    }

    /// The open sequence's bytes.
    pub fn open(&self) -> &[u8] {
        match self.next {
            Next::First => &[],
            _ => &self.bytes,
        }
    }

    /// The end of the stream: 27, 209 "and there only closing means 0.
    /// Closing on another unfinished sequence gives 12."
    pub fn close(&self) -> Option<(Item<'static>, usize)> {
        let item = match *self.open() {
            [] => return None,
            [_, 209] => Item::Sequence { second: 209, parameters: &[0] },
            _ => refusal(12),
        };
        Some((item, self.count - self.bytes.len()))
    }

    /// Lets the open sequence wait in the settings, and nothing else.
    pub fn leave(&self, settings: &mut Settings) {
        settings.waiting = [0; LONGEST_WAIT];
        settings.waiting[..self.open().len()].copy_from_slice(self.open());
        settings.held = self.open().len() as u8;
        settings.count = self.count as u32;
    }
}

/// Whether these bytes are the start of a sequence and not the whole of it.
/// 27, 209 is: "At the end of a piece 27, 209 waits for its byte".
pub fn unfinished(bytes: &[u8]) -> bool {
    Next::after_open(bytes).is_some_and(|next| next != Next::First)
}

/// "Waiting bytes are sound only as an unfinished sequence no longer than
/// the count." What lies behind them is zero.
pub fn stream_sound(s: &Settings) -> bool {
    let (held, count) = (usize::from(s.held), s.count as usize);
    if held > LONGEST_WAIT || held > count || count > LONGEST_STREAM {
        return false;
    }
    let (waiting, behind) = s.waiting.split_at(held);
    Next::after_open(waiting).is_some() && behind.iter().all(|&byte| byte == 0)
}

/// The bytes that wait.
pub fn waits(s: &Settings) -> &[u8] {
    &s.waiting[..usize::from(s.held)]
}
