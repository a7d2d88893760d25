//! The comparison of two screens, given by two Rust functions.

use reference::differences::Record;

#[derive(Clone, Copy)]
pub struct Functions {
    pub name: &'static str,
    pub compare: CompareCall,
    pub first_difference: FirstCall,
}

pub type CompareCall = fn(&[u8], &[u8], &mut [Record]) -> (u8, usize);
pub type FirstCall = fn(&[u8], &[u8]) -> (u8, Option<Record>);
