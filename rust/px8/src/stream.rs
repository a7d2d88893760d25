//! A stream through `std::io::Write`.

use crate::terminal::{Reply, Terminal};
use crate::types::MESSAGE_MOST;
use alloc::vec::Vec;
use std::io;

/// A terminal's stream as something to write to. What is written may be cut
/// anywhere; nothing is held back here, since what is unfinished waits in the
/// terminal's settings. Refused sequences do not stop it: what came of all that
/// was written, counts, first refusal and copies, is in [`Stream::so_far`].
///
/// The end is said by [`Stream::close`]. One that is dropped leaves the stream
/// open, and [`Terminal::stream`] goes on with it. Where a piece or the closing is refused,
/// the error holds a [`Refused`](crate::Refused):
///
/// ```
/// use std::io::Write;
/// let open = px8::Terminal::open();
/// let settings = px8::Settings { count: px8::COUNT_MOST, ..*open.settings() };
/// let mut full = px8::Terminal::resume(settings, *open.cells(), *open.layer(), *open.shown(), *open.dots());
/// let error = full.stream().write_all(b"38,500").unwrap_err();
/// let refused: &px8::Refused = error.get_ref().unwrap().downcast_ref().unwrap();
/// assert_eq!(*refused, px8::Refused::StreamTooLong);
/// ```
///
/// Else all goes in:
///
/// ```
/// use std::io::{Read, Write};
/// let mut terminal = px8::Terminal::open();
/// let mut line: &[u8] = b"net\x1b=#$38,500\x1bP\x1b\xd1"; // any reader: a serial port, a file
/// let mut stream = terminal.stream();
/// let mut part = [0; 3];
/// while let Ok(length @ 1..) = line.read(&mut part) {
///     stream.write_all(&part[..length]).unwrap();
/// }
/// let reply = stream.close().unwrap();
/// assert_eq!(reply.answer.to_string(), "answer 0 taken 17 accepted 3 refused 0 first 0 at 0");
/// assert_eq!(reply.printed.len(), px8::COPY);
/// assert_eq!(terminal.to_string(), "1 net\n2\n3\n4     38,500\n5\n6\n7\n8\n");
/// ```
#[derive(Debug)]
pub struct Stream<'a> {
    terminal: &'a mut Terminal,
    so_far: Reply,
}

impl<'a> Stream<'a> {
    pub(crate) fn of(terminal: &'a mut Terminal) -> Stream<'a> {
        Stream { terminal, so_far: Reply::default() }
    }

    /// What came of all that was written to this value: the counts together,
    /// the first refusal, the copies that were not taken out yet.
    ///
    /// ```
    /// use std::io::Write;
    /// let mut terminal = px8::Terminal::open();
    /// let mut stream = terminal.stream();
    /// stream.write_all(b"gross\x1b").unwrap();
    /// stream.write_all(b"\x1bnet\x1bj").unwrap();
    /// assert_eq!(stream.so_far().answer.refused, 2);
    /// assert_eq!(stream.so_far().answer.refusal().unwrap().offset, 5);
    /// ```
    pub fn so_far(&self) -> &Reply {
        &self.so_far
    }

    /// Takes the copies out, to send them on while the stream goes on.
    ///
    /// ```
    /// use std::io::Write;
    /// let mut terminal = px8::Terminal::open();
    /// let mut stream = terminal.stream();
    /// stream.write_all(b"net\x1bP").unwrap();
    /// assert!(stream.take_printed().starts_with(b"net "));
    /// assert!(stream.take_printed().is_empty());
    /// ```
    pub fn take_printed(&mut self) -> Vec<u8> {
        core::mem::take(&mut self.so_far.printed)
    }

    /// The terminal as it stands between two pieces.
    pub fn terminal(&self) -> &Terminal {
        self.terminal
    }

    /// Closes the stream, and hands back what came of all of it.
    ///
    /// ```
    /// use std::io::Write;
    /// let mut terminal = px8::Terminal::open();
    /// let mut stream = terminal.stream();
    /// stream.write_all(b"net\x1b=").unwrap();
    /// let refusal = stream.close().unwrap().answer.refusal().unwrap();
    /// assert_eq!(refusal.to_string(), "refusal 12 at offset 3: the message or stream ends inside the sequence");
    /// ```
    pub fn close(mut self) -> io::Result<Reply> {
        let answer = self.terminal.closing();
        self.add(Reply { answer, printed: Vec::new() })?;
        Ok(self.so_far)
    }

    fn add(&mut self, reply: Reply) -> io::Result<()> {
        let Reply { answer, printed } = reply;
        answer.served().map_err(io::Error::other)?;
        let all = &mut self.so_far.answer;
        all.taken += answer.taken;
        all.accepted += answer.accepted;
        all.refused += answer.refused;
        all.printed += answer.printed;
        if all.first == 0 {
            (all.first, all.parameter, all.offset) = (answer.first, answer.parameter, answer.offset);
        }
        self.so_far.printed.extend(printed);
        Ok(())
    }
}

impl io::Write for Stream<'_> {
    /// Takes up to [`MESSAGE_MOST`] bytes as one piece. It fails, and takes
    /// none, where the piece is refused; the error holds a [`Refused`](crate::Refused).
    fn write(&mut self, bytes: &[u8]) -> io::Result<usize> {
        let piece = &bytes[..bytes.len().min(MESSAGE_MOST)];
        let reply = self.terminal.piece(piece);
        self.add(reply)?;
        Ok(piece.len())
    }

    /// Nothing to do: a piece is shown as soon as it is written.
    fn flush(&mut self) -> io::Result<()> {
        Ok(())
    }
}
