//! Two shown screens side by side (document 02, P4): the boundary to the
//! archive, with the unsafe code that it needs.

use crate::refused::Refused;
use crate::types::{Difference, SHOWN};
use alloc::vec;
use core::mem::MaybeUninit;

#[repr(C)]
struct Compared {
    number: u8,
    count: u64,
}

#[repr(C)]
struct First {
    number: u8,
    found: u8,
    difference: Difference,
}

unsafe extern "C" {
    #[link_name = "px8_compare_l2"]
    fn px8_compare(
        answer: *mut Compared,
        first: *const u8,
        first_length: u64,
        second: *const u8,
        second_length: u64,
        list: *mut Difference,
        list_length: u64,
    );

    #[link_name = "px8_first_difference_l2"]
    fn px8_first_difference(
        answer: *mut First,
        first: *const u8,
        first_length: u64,
        second: *const u8,
        second_length: u64,
    );
}

/// Writes a record for each place that differs, by rows, from the list's
/// start, and gives their number; the list beyond stays. The error is
/// [`Refused::StoreSize`] or [`Refused::ListShort`], and the list is then untouched.
///
/// ```
/// let (one, mut other) = ([32; px8::SHOWN], [32; px8::SHOWN]);
/// (other[79], other[80]) = (65, 66);
/// let mut list = [px8::Difference::default(); 3];
/// assert_eq!(px8::compare(&one, &other, &mut list), Ok(2));
/// assert_eq!((list[0].row, list[0].column, list[0].second), (1, 80, 65));
/// assert_eq!((list[1].row, list[1].column, list[1].second), (2, 1, 66));
/// assert_eq!(px8::compare(&one, &other, &mut list[..1]), Err(px8::Refused::ListShort));
/// assert_eq!(px8::compare(&one, &other[1..], &mut []), Err(px8::Refused::StoreSize));
/// ```
pub fn compare(first: &[u8], second: &[u8], list: &mut [Difference]) -> Result<usize, Refused> {
    let mut answer = MaybeUninit::uninit();
    // SAFETY: each pointer goes with its own length, an exclusive borrow
    // overlaps no other, and any bytes make a record. The answer is written whole, and the
    // call keeps no pointer.
    let compared = unsafe {
        px8_compare(
            answer.as_mut_ptr(),
            first.as_ptr(),
            first.len() as u64,
            second.as_ptr(),
            second.len() as u64,
            list.as_mut_ptr(),
            list.len() as u64,
        );
        answer.assume_init()
    };
    Refused::unless_served(compared.number, compared.count as usize)
}

/// Only the first difference, or none exactly when the screens are equal. The
/// error is [`Refused::StoreSize`].
///
/// ```
/// let (one, mut other) = ([32; px8::SHOWN], [32; px8::SHOWN]);
/// assert_eq!(px8::first_difference(&one, &other), Ok(None));
/// other[81] = 65;
/// let there = px8::Difference { row: 2, column: 2, first: 32, second: 65 };
/// assert_eq!(px8::first_difference(&one, &other), Ok(Some(there)));
/// assert_eq!(px8::first_difference(&one[1..], &other), Err(px8::Refused::StoreSize));
/// ```
pub fn first_difference(first: &[u8], second: &[u8]) -> Result<Option<Difference>, Refused> {
    let mut answer = MaybeUninit::uninit();
    // SAFETY: each pointer goes with its own length, and is only read. The answer is
    // written whole.
    let answer = unsafe {
        px8_first_difference(
            answer.as_mut_ptr(),
            first.as_ptr(),
            first.len() as u64,
            second.as_ptr(),
            second.len() as u64,
        );
        answer.assume_init()
    };
    Refused::unless_served(answer.number, (answer.found != 0).then_some(answer.difference))
}

/// All differences of two shown screens, by rows.
///
/// ```
/// let (one, mut other) = ([32; px8::SHOWN], [32; px8::SHOWN]);
/// (other[0], other[639]) = (65, 66);
/// let places: Vec<_> = px8::differences(&one, &other).map(|d| (d.row, d.column)).collect();
/// assert_eq!(places, [(1, 1), (8, 80)]);
/// ```
pub fn differences(first: &[u8; SHOWN], second: &[u8; SHOWN]) -> impl ExactSizeIterator<Item = Difference> {
    let mut list = vec![Difference::default(); SHOWN];
    let count = compare(first, second, &mut list).expect("two screens, and a record for each place");
    list.truncate(count);
    list.into_iter()
}

#[cfg(test)]
mod tests {
    use super::*;
    use core::mem::{align_of, offset_of, size_of};

    #[test]
    fn results_are_laid_out_as_in_the_header() {
        assert_eq!((size_of::<Difference>(), align_of::<Difference>()), (4, 1));
        assert_eq!((size_of::<Compared>(), offset_of!(Compared, count)), (16, 8));
        assert_eq!((size_of::<First>(), align_of::<First>()), (6, 1));
        assert_eq!((offset_of!(First, found), offset_of!(First, difference)), (1, 2));
    }
}
