//! The broken copies of the reference, which the build writes from `breaks`, and the form in
//! which an implementation is given: its calls as Rust functions. A crate of its own, so that
//! the copies are compiled once, and anew only when the reference or a break changes.

pub mod screens;
pub mod traces;
pub mod writes;

use reference::{Answer, Settings};

/// An implementation of the terminal given by Rust functions.
#[derive(Clone, Copy)]
pub struct Functions {
    pub name: &'static str,
    pub opening: OpeningCall,
    pub message: MessageCall,
    pub message_short: MessageCall,
    pub piece: MessageCall,
    pub closing: ClosingCall,
    pub pack: PackCall,
    pub key_text: KeyTextCall,
    pub printed: for<'a> fn(&'a [u8], usize) -> &'a [u8],
}

pub type OpeningCall = fn(usize, &mut [u8], &mut [u8], &mut [u8], &mut [u8]) -> (Settings, u8);
pub type MessageCall =
    fn(Settings, &[u8], &mut [u8], &mut [u8], &mut [u8], &mut [u8], &mut [u8]) -> (Settings, Answer);
pub type ClosingCall = fn(Settings, &mut [u8], &mut [u8], &mut [u8], &mut [u8]) -> (Settings, Answer);
pub type PackCall =
    fn(Settings, &[u8], &mut [u8], &mut [u8], &mut [u8], &mut [u8], &mut [u8]) -> (Settings, Answer, u32);
pub type KeyTextCall = fn(Settings, usize, &[u8]) -> (Settings, Answer);

include!(concat!(env!("OUT_DIR"), "/broken.rs"));
