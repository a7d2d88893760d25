//! The key repeats, given by a Rust function.

use reference::Settings;

#[derive(Clone, Copy)]
pub struct Functions {
    pub name: &'static str,
    pub key_repeats: RepeatsCall,
}

pub type RepeatsCall = fn(Settings, &[u8], &mut [u8]) -> (u8, usize);
