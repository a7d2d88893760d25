//! Sequences written into an outgoing buffer (document 02, P7): the boundary to the
//! archive, with the unsafe code that it needs, and the writer over it.

use crate::sequence::{PARAMETERS_MOST, Sequence};
use crate::types::{NO_SPACE, OUT_OF_RANGE, SERVED, Settings, UNSOUND, in_range_words};
use alloc::vec::Vec;
use core::fmt;
use core::mem::MaybeUninit;

/// ESC, the second byte and the most parameters.
const SEQUENCE_MOST: usize = 2 + PARAMETERS_MOST;

/// What [`write()`] gives back.
#[derive(Clone, Copy, Debug, PartialEq, Eq)]
#[must_use]
pub struct Reached {
    /// The place behind what was written; where the call was refused, as given.
    pub place: usize,
    /// [`SERVED`], or why nothing was written: 3, 10, 11, 12 or 22.
    pub number: u8,
    /// The first bad parameter, from 1, if the number is 11; else 0.
    pub parameter: u8,
}

/// The same as the archive gives it.
#[repr(C)]
struct ReachedAnswer {
    place: u64,
    number: u8,
    parameter: u8,
}

unsafe extern "C" {
    #[link_name = "px8_write_l2"]
    fn px8_write(
        settings: *const Settings,
        answer: *mut ReachedAnswer,
        second: u8,
        parameters: *const u8,
        parameters_length: u64,
        buffer: *mut u8,
        buffer_length: u64,
        place: u64,
    );
}

/// The writing call: a sequence, by its second byte and its parameters as sent, into the
/// buffer from the place on. Refused, it alters no byte, and the place stays: by 3, by
/// the number that a reader under these settings would give these bytes (10, 11, 12;
/// bytes that wait are left aside, and a copy has room), by 22 where the buffer has no
/// space. More parameters than the sequence has are 10 too, and a 209 without its
/// parameter is written with 0. [`Writer`] has names for the sequences.
///
/// ```
/// let settings = *px8::Terminal::open().settings();
/// let mut buffer = [7; 8];
/// let reached = px8::write(&settings, 61, &[43, 32], &mut buffer, 1);
/// assert_eq!((reached.number, reached.place), (px8::SERVED, 5));
/// assert_eq!(buffer, [7, 27, 61, 43, 32, 7, 7, 7]);
/// let reached = px8::write(&settings, 61, &[56, 32], &mut buffer, 5);
/// assert_eq!((reached.number, reached.parameter, reached.place), (px8::OUT_OF_RANGE, 1, 5));
/// assert_eq!(px8::write(&settings, 61, &[43, 32], &mut buffer, 5).number, px8::NO_SPACE);
/// ```
#[inline]
pub fn write(settings: &Settings, second: u8, parameters: &[u8], buffer: &mut [u8], place: usize) -> Reached {
    let mut answer = MaybeUninit::uninit();
    // SAFETY: each pointer goes with its own length, and an exclusive borrow does not
    // overlap the settings and the parameters, which are only read. Any settings and any
    // place may be given, the answer is written whole, and the call keeps no pointer.
    let ReachedAnswer { place, number, parameter } = unsafe {
        px8_write(
            settings,
            answer.as_mut_ptr(),
            second,
            parameters.as_ptr(),
            parameters.len() as u64,
            buffer.as_mut_ptr(),
            buffer.len() as u64,
            place as u64,
        );
        answer.assume_init()
    };
    // the place given, or one in the buffer
    Reached { place: place as usize, number, parameter }
}

/// Something that a [`Writer`] can write to: a `Vec<u8>`, its own or lent, that grows, or
/// a lent slice, which has an end.
pub trait Outgoing: sealed::Outgoing {}

impl<B: sealed::Outgoing> Outgoing for B {}

mod sealed {
    pub trait Outgoing {
        /// Where a writer begins.
        fn start(&self) -> usize;

        /// The buffer, with as many bytes behind the place as can be had.
        fn opened(&mut self, place: usize) -> &mut [u8];

        /// The writing has come to this place.
        fn reached(&mut self, place: usize);

        fn bytes(&self) -> &[u8];
    }
}

impl sealed::Outgoing for &mut [u8] {
    fn start(&self) -> usize {
        0
    }

    fn opened(&mut self, _: usize) -> &mut [u8] {
        self
    }

    fn reached(&mut self, _: usize) {}

    fn bytes(&self) -> &[u8] {
        self
    }
}

impl sealed::Outgoing for Vec<u8> {
    /// Behind what it holds.
    fn start(&self) -> usize {
        self.len()
    }

    fn opened(&mut self, place: usize) -> &mut [u8] {
        self.resize(place + SEQUENCE_MOST, 0);
        self
    }

    fn reached(&mut self, place: usize) {
        self.truncate(place);
    }

    fn bytes(&self) -> &[u8] {
        self
    }
}

impl sealed::Outgoing for &mut Vec<u8> {
    fn start(&self) -> usize {
        self.len()
    }

    fn opened(&mut self, place: usize) -> &mut [u8] {
        sealed::Outgoing::opened(*self, place)
    }

    fn reached(&mut self, place: usize) {
        self.truncate(place);
    }

    fn bytes(&self) -> &[u8] {
        self
    }
}

/// Writes sequences one behind another: it carries the outgoing buffer and the place
/// reached in it.
///
/// Each is judged by the settings that are handed with it, and not by what those written
/// before would change: behind a mode setting hand over settings of that mode.
///
/// ```
/// use px8::{Sequence, Writer};
/// let mut terminal = px8::Terminal::open();
/// let mut line = b"net".to_vec();
/// let mut writer = Writer::new(&mut line);
/// writer.write(terminal.settings(), Sequence::cursor_to(4, 5))?;
/// writer.write(terminal.settings(), Sequence::Print { code: 27 })?;
/// assert_eq!(line, [b'n', b'e', b't', 27, 61, 35, 36, 27, 37, 27]);
/// assert!(terminal.message(&line).answer.is_clean());
/// # Ok::<(), px8::Unwritten>(())
/// ```
///
/// Over a slice there is an end:
///
/// ```
/// use px8::{Sequence, Writer};
/// let settings = *px8::Terminal::open().settings();
/// let mut buffer = [7; 4];
/// let mut writer = Writer::new(&mut buffer[..]);
/// writer.write(&settings, Sequence::Select { screen: 0 }).unwrap();
/// let refused = writer.write(&settings, Sequence::Clear).unwrap_err();
/// assert_eq!(refused.to_string(), "not written, number 22: the buffer has no space for it");
/// assert_eq!((writer.place(), writer.written()), (3, &[27, 209, 0][..]));
/// assert_eq!(buffer, [27, 209, 0, 7]);
/// ```
#[derive(Clone, Debug)]
pub struct Writer<B> {
    buffer: B,
    place: usize,
}

impl<B: Outgoing> Writer<B> {
    /// A writer from the start of a slice on, or behind what a vector holds.
    pub fn new(buffer: B) -> Writer<B> {
        let place = buffer.start();
        Writer { buffer, place }
    }

    /// Writes a sequence behind those before. A refused one changes nothing.
    pub fn write(&mut self, settings: &Settings, sequence: Sequence) -> Result<(), Unwritten> {
        let parameters = sequence.sent();
        let buffer = self.buffer.opened(self.place);
        let reached = write(settings, sequence.second(), parameters.as_slice(), buffer, self.place);
        self.place = reached.place;
        self.buffer.reached(reached.place);
        match reached {
            Reached { number: SERVED, .. } => Ok(()),
            Reached { number, parameter, .. } => Err(Unwritten { number, parameter }),
        }
    }

    /// The place reached: how much of the buffer is to be sent.
    pub fn place(&self) -> usize {
        self.place
    }

    /// The buffer up to the place.
    pub fn written(&self) -> &[u8] {
        &self.buffer.bytes()[..self.place]
    }

    /// The buffer back.
    pub fn into_inner(self) -> B {
        self.buffer
    }
}

impl<'a> Writer<&'a mut [u8]> {
    /// A writer that goes on from a place in a slice; past its end nothing is written.
    ///
    /// ```
    /// use px8::{Sequence, Writer};
    /// let settings = *px8::Terminal::open().settings();
    /// let mut buffer = [7; 4];
    /// Writer::at(&mut buffer, 2).write(&settings, Sequence::Clear).unwrap();
    /// assert_eq!(buffer, [7, 7, 27, 42]);
    /// let refused = Writer::at(&mut buffer, usize::MAX).write(&settings, Sequence::Clear);
    /// assert_eq!(refused.unwrap_err().number, px8::NO_SPACE);
    /// ```
    pub fn at(buffer: &'a mut [u8], place: usize) -> Writer<&'a mut [u8]> {
        Writer { buffer, place }
    }
}

/// Why a sequence was not written. It prints itself in words, and is an error that `?`
/// can hand on.
#[derive(Clone, Copy, Debug, PartialEq, Eq)]
pub struct Unwritten {
    /// [`UNSOUND`], [`OUT_OF_RANGE`] or [`NO_SPACE`].
    pub number: u8,
    /// The first bad parameter, from 1, of [`OUT_OF_RANGE`]; else 0.
    pub parameter: u8,
}

impl fmt::Display for Unwritten {
    fn fmt(&self, f: &mut fmt::Formatter) -> fmt::Result {
        write!(f, "not written, number {}: ", self.number)?;
        match self.number {
            UNSOUND => write!(f, "a setting is outside its range"),
            OUT_OF_RANGE => in_range_words(f, self.parameter),
            NO_SPACE => write!(f, "the buffer has no space for it"),
            // of a sequence with a name there is no other number
            _ => write!(f, "no sequence of the list"),
        }
    }
}

impl core::error::Error for Unwritten {}

#[cfg(test)]
mod tests {
    use super::*;
    use core::mem::{align_of, offset_of, size_of};

    #[test]
    fn the_result_is_laid_out_as_in_the_header() {
        assert_eq!((size_of::<ReachedAnswer>(), align_of::<ReachedAnswer>()), (16, 8));
        assert_eq!((offset_of!(ReachedAnswer, place), offset_of!(ReachedAnswer, number)), (0, 8));
        assert_eq!(offset_of!(ReachedAnswer, parameter), 9);
    }
}
