//! The writer of sequences, given by a Rust function.

use reference::Settings;

#[derive(Clone, Copy)]
pub struct Functions {
    pub name: &'static str,
    pub write: WriteCall,
}

/// The place afterwards, the number, and the bad parameter.
pub type Reached = (usize, u8, u8);
pub type WriteCall = fn(Settings, u8, &[u8], &mut [u8], usize) -> Reached;
