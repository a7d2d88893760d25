//! The terminal of a weighing bay for Rust programs: a safe layer over the
//! proved library's archive, `libpx8.a`.
//!
//! [`Terminal`] owns its stores and is what most programs want; a `Stream` (feature `std`)
//! takes a serial line into it through `std::io::Write`, cut at any byte.
//! [`opening`], [`message`], [`message_short`], [`piece`], [`closing`], [`pack`],
//! [`key_text`] and [`printed`] are the library's own calls, on slices of any length; a
//! wrong length is a refusal and never a fault. [`compare`], [`first_difference`] and [`differences`] lay
//! two shown screens side by side. [`key_repeats`] works out from a trace which
//! codes the keyboard sent. A [`Writer`] writes each [`Sequence`] by its name, so that a
//! program need not spell its bytes. Why a whole call was refused is a [`Refused`], why a
//! sequence of one that was served a [`Refusal`].
//!
//! The archive is looked for in the repository's `target/staticlib`, or in
//! the folder named by the environment variable `PX8_LIB_DIR`.
//!
//! ```
//! let mut terminal = px8::Terminal::open();
//! // the load on screen 1, the day's tally on screen 2
//! let reply = terminal.message(b"LOAD kg \x1b\xd1\x01TALLY 12\x1b\xd1\x00");
//! assert!(reply.answer.is_clean());
//! assert!(terminal.message(b"38,500").answer.is_clean());
//! assert!(terminal.to_string().starts_with("1 LOAD kg 38,500\n2\n"));
//! assert!(terminal.message(&[27, 209, 1]).answer.is_clean());
//! assert!(terminal.to_string().starts_with("1 TALLY 12\n2\n"));
//! ```

#![no_std]
#![warn(missing_docs)]

extern crate alloc;
#[cfg(feature = "std")]
extern crate std;

mod calls;
mod packs;
mod refused;
mod screens;
mod sequence;
#[cfg(feature = "std")]
mod stream;
mod terminal;
mod types;
mod writer;

pub use calls::{closing, key_repeats, key_text, message, message_short, opening, piece, printed};
pub use packs::{PackReply, pack, packed};
pub use refused::Refused;
pub use screens::{compare, differences, first_difference};
pub use sequence::{Dot, Sequence};
#[cfg(feature = "std")]
pub use stream::Stream;
pub use terminal::{Reply, Terminal};
pub use types::*;
pub use writer::{Outgoing, Reached, Unwritten, Writer, write};
