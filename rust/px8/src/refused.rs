//! Why a whole call was refused.

use crate::types::{Answer, COUNT_MOST, KEY_TEXT, KEYS, MESSAGE_MOST, PACK_MOST, SERVED};
use core::fmt;

/// Why a whole call was refused; nothing is then altered. (A sequence that is refused in a
/// call that was served is a [`Refusal`](crate::Refusal).) It prints itself in words, and is
/// an error that `?` can hand on.
///
/// ```
/// fn bay(rule: usize) -> Result<px8::Terminal, Box<dyn std::error::Error>> {
///     let mut terminal = px8::Terminal::open_with(rule)?;
///     terminal.message(b"LOAD kg").answer.served()?;
///     Ok(terminal)
/// }
/// assert!(bay(2).is_ok());
/// assert_eq!(bay(3).unwrap_err().to_string(), "refused by 23: the opening's rule is not 1 or 2");
/// ```
#[derive(Clone, Copy, Debug, PartialEq, Eq, Hash)]
#[non_exhaustive]
#[repr(u8)]
pub enum Refused {
    /// A store or a screen is not of its size.
    StoreSize = crate::STORE_SIZE,
    /// The message, the piece or a message of the pack is longer than [`MESSAGE_MOST`].
    TooLong = crate::TOO_LONG,
    /// A setting is outside its range.
    Unsound = crate::UNSOUND,
    /// The piece would take the stream's count past [`COUNT_MOST`].
    StreamTooLong = crate::STREAM_TOO_LONG,
    /// A message or pack while bytes of a stream wait.
    BytesWait = crate::BYTES_WAIT,
    /// The key is not 1 to [`KEYS`], or its text not of [`KEY_TEXT`] bytes.
    BadKeyText = crate::BAD_KEY_TEXT,
    /// More places differ than the list has records.
    ListShort = crate::LIST_SHORT,
    /// The pack or the trace is longer than [`PACK_MOST`].
    PackTooLong = crate::PACK_TOO_LONG,
    /// A record of the pack or trace is cut.
    CutRecord = crate::CUT_RECORD,
    /// A record of the pack is of another kind, or one of the trace of another kind or length.
    UnknownRecord = crate::UNKNOWN_RECORD,
    /// An opening by another rule than 1 or 2.
    BadRule = crate::BAD_RULE,
    /// A tick of the trace falls.
    TickFalls = crate::TICK_FALLS,
    /// The codes need more than the output has.
    OutputTooSmall = crate::OUTPUT_TOO_SMALL,
}

/// All of them.
const ALL: [Refused; 13] = [
    Refused::StoreSize,
    Refused::TooLong,
    Refused::Unsound,
    Refused::StreamTooLong,
    Refused::BytesWait,
    Refused::BadKeyText,
    Refused::ListShort,
    Refused::PackTooLong,
    Refused::CutRecord,
    Refused::UnknownRecord,
    Refused::BadRule,
    Refused::TickFalls,
    Refused::OutputTooSmall,
];

impl Refused {
    /// The number that the archive answers.
    ///
    /// ```
    /// assert_eq!(px8::Refused::BytesWait.number(), px8::BYTES_WAIT);
    /// ```
    pub const fn number(self) -> u8 {
        self as u8
    }

    /// The refusal of a number; none of 0 and of a number that no whole call is refused by.
    ///
    /// ```
    /// assert_eq!(px8::Refused::of(23), Some(px8::Refused::BadRule));
    /// assert_eq!((px8::Refused::of(0), px8::Refused::of(11)), (None, None));
    /// ```
    pub fn of(number: u8) -> Option<Refused> {
        ALL.into_iter().find(|refused| refused.number() == number)
    }

    /// `value` where the call was served; else why not.
    pub(crate) fn unless_served<T>(number: u8, value: T) -> Result<T, Refused> {
        match Refused::of(number) {
            Some(refused) => Err(refused),
            None => {
                // no call has another number
                debug_assert_eq!(number, SERVED);
                Ok(value)
            }
        }
    }
}

impl Answer {
    /// Nothing where the call was served, with refused sequences or without; else why not.
    ///
    /// ```
    /// let mut terminal = px8::Terminal::open();
    /// assert_eq!(terminal.message(b"38,500").answer.served(), Ok(()));
    /// assert_eq!(terminal.message(&[65; 4097]).answer.served(), Err(px8::Refused::TooLong));
    /// ```
    pub fn served(&self) -> Result<(), Refused> {
        Refused::unless_served(self.number, ())
    }
}

impl fmt::Display for Refused {
    fn fmt(&self, f: &mut fmt::Formatter) -> fmt::Result {
        write!(f, "refused by {}: ", self.number())?;
        match self {
            Refused::StoreSize => write!(f, "a store or screen is not of its size"),
            Refused::TooLong => write!(f, "a message or piece is longer than {MESSAGE_MOST} bytes"),
            Refused::Unsound => write!(f, "a setting is outside its range"),
            Refused::StreamTooLong => write!(f, "the stream would be longer than {COUNT_MOST} bytes"),
            Refused::BytesWait => write!(f, "bytes of a stream wait"),
            Refused::BadKeyText => {
                write!(f, "the key is not 1 to {KEYS}, or its text not of {KEY_TEXT} bytes")
            }
            Refused::ListShort => write!(f, "more places differ than the list has records"),
            Refused::PackTooLong => write!(f, "the pack or trace is longer than {PACK_MOST} bytes"),
            Refused::CutRecord => write!(f, "a record is cut"),
            Refused::UnknownRecord => write!(f, "a record is of another kind or length"),
            Refused::BadRule => write!(f, "the opening's rule is not 1 or 2"),
            Refused::TickFalls => write!(f, "a tick is below the one before"),
            Refused::OutputTooSmall => write!(f, "the codes need more than the output has"),
        }
    }
}

impl core::error::Error for Refused {}
