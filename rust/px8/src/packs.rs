//! Many messages in one call (document 02, P6): the boundary to the archive, with
//! the unsafe code that it needs, and what a terminal gives back.

use crate::calls::read;
use crate::types::{Answer, Refusal, Settings};
use alloc::vec::Vec;

#[repr(C)]
struct PackAnswer {
    answer: Answer,
    record: u32,
}

unsafe extern "C" {
    #[link_name = "px8_pack_l2"]
    fn px8_pack(
        settings: *mut Settings,
        answer: *mut PackAnswer,
        pack: *const u8,
        pack_length: u64,
        cells: *mut u8,
        cells_length: u64,
        layer: *mut u8,
        layer_length: u64,
        shown: *mut u8,
        shown_length: u64,
        dots: *mut u8,
        dots_length: u64,
        printer: *mut u8,
        printer_length: u64,
    );
}

/// The pack call: messages as records, one behind the other, as if each had come in
/// a message call of its own with the printer room that those before left. Behind the
/// answer stands the record of the first refusal, from 1, or 0. Refused by 1, 19, 20,
/// 21, 2, 3 or 16; see [`packed`] for the form.
///
/// ```
/// let (mut cells, mut layer) = ([0; px8::CELLS], [0; px8::LAYER]);
/// let (mut shown, mut dots) = ([0; px8::SHOWN], [0; px8::DOTS]);
/// let (mut settings, _) = px8::opening(1, &mut cells, &mut layer, &mut shown, &mut dots);
/// let pack = [1, 0, 1, 0, 27, 1, 0, 1, 0, 80];
/// let (answer, record) =
///     px8::pack(&mut settings, &pack, &mut cells, &mut layer, &mut shown, &mut dots, &mut []);
/// assert_eq!(answer.to_string(), "answer 0 taken 2 accepted 0 refused 1 first 12 at 0");
/// assert_eq!((record, shown[0], settings.places[0].column), (1, 80, 2));
/// ```
#[inline]
pub fn pack(
    settings: &mut Settings,
    pack: &[u8],
    cells: &mut [u8],
    layer: &mut [u8],
    shown: &mut [u8],
    dots: &mut [u8],
    printer: &mut [u8],
) -> (Answer, u32) {
    // SAFETY: a call of the archive, with its answer.
    let PackAnswer { answer, record } =
        unsafe { read(px8_pack, settings, pack, cells, layer, shown, dots, printer) };
    (answer, record)
}

/// These messages as a pack: for each the length in two bytes, the low one first,
/// 1, 0 and the message. One of more than 65,535 bytes, which a length cannot say, is
/// written by its first 65,535: the pack is refused by 19 all the same.
///
/// ```
/// assert_eq!(px8::packed([&b"AB"[..], b""]), [2, 0, 1, 0, 65, 66, 0, 0, 1, 0]);
/// ```
pub fn packed<M: AsRef<[u8]>>(messages: impl IntoIterator<Item = M>) -> Vec<u8> {
    let mut pack = Vec::new();
    for message in messages {
        let message = message.as_ref();
        let length = message.len().min(usize::from(u16::MAX));
        pack.extend((length as u16).to_le_bytes());
        pack.extend([1, 0]);
        pack.extend(&message[..length]);
    }
    pack
}

/// What a pack gives back.
#[derive(Clone, Debug, Default, PartialEq, Eq)]
#[must_use]
pub struct PackReply {
    /// The counts of all messages together, and the first refusal.
    pub answer: Answer,
    /// The record of the first refusal, from 1; 0 if there is none.
    pub record: u32,
    /// The printed copies of all messages, one behind the other.
    pub printed: Vec<u8>,
}

impl PackReply {
    /// The first refusal, if a sequence was refused, and its record.
    ///
    /// ```
    /// let mut terminal = px8::Terminal::open();
    /// let reply = terminal.pack([&b"net"[..], b"kg\x1bj"]);
    /// let (record, refusal) = reply.refusal().expect("27, 106 is no sequence");
    /// assert_eq!((record, refusal.number, refusal.offset), (2, px8::NOT_LISTED, 2));
    /// ```
    pub fn refusal(&self) -> Option<(u32, Refusal)> {
        Some((self.record, self.answer.refusal()?))
    }
}

#[cfg(test)]
mod tests {
    use super::*;
    use core::mem::{align_of, offset_of, size_of};

    #[test]
    fn results_are_laid_out_as_in_the_header() {
        assert_eq!((size_of::<PackAnswer>(), align_of::<PackAnswer>()), (40, 8));
        assert_eq!((offset_of!(PackAnswer, answer), offset_of!(PackAnswer, record)), (0, 32));
    }
}
