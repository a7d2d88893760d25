//! Document 01, and what document 02 asks for, in plain Rust, clear before
//! clever: the independent program that the library's results are compared
//! with.
//!
//! - `settings`: the plain types and the screens' measures
//! - `dots`: the dot store of mode 3
//! - `sound`: which settings are sound
//! - `read`: a message into items
//! - `stream`: what waits from piece to piece
//! - `apply`: what each item does to what stands
//! - `picture`: the picture, the shown screen, the printed copy
//! - `calls`: the calls
//! - `records`: the records of a pack and of a trace
//! - `pack`: many messages in one call
//! - `short`: a message that paints less
//! - `text`: the words of the programs `show`, `replay` and `picture`
//! - `glass`: the words of the program `glass`
//! - `lengths`: the words of the program `lengths`
//! - `differences`: two screens compared, and the words of `compare`
//! - `repeats`: key repeats from a trace, and the words of `repeats`
//! - `write`: the sequences written

#![forbid(unsafe_code)]

pub mod apply;
pub mod calls;
pub mod differences;
pub mod dots;
pub mod glass;
pub mod lengths;
pub mod pack;
pub mod picture;
pub mod read;
pub mod records;
pub mod repeats;
pub mod settings;
pub mod short;
pub mod sound;
pub mod stream;
pub mod text;
pub mod write;

pub use calls::{closing, key_text, message, opening, piece, printed};
pub use pack::pack;
pub use picture::picture;
pub use settings::{Answer, Keys, Place, Settings};
pub use short::message_short;
pub use sound::sound;
