//! The ends of the parameters' ranges.

use super::{Before, Coverage, JUDGED};
use crate::generate::sequences::{mode_ranges, ranges};

impl Coverage {
    /// Both ends of every judged range, and one beyond each, where a byte
    /// can lie there. 208 stands under its mode byte, which no second byte is.
    pub(super) fn expect_ends(&mut self) {
        let sequences = JUDGED.iter().map(|&second| (second, ranges(second, 8, 24, 80)));
        let modes = (0..3).map(|mode| (mode, mode_ranges(mode, 24)));
        for (name, ranges) in sequences.chain(modes) {
            for (at, &(low, high)) in ranges.iter().enumerate().filter(|(_, &range)| range != (0, 255)) {
                let below = (low > 0).then_some("below");
                for end in ["low", "high", "beyond"].into_iter().chain(below) {
                    self.ends.insert((end, name, at + 1), 0);
                }
                assert!(low < high && high < 255);
            }
        }
    }

    /// A whole sequence, accepted or refused by 11: where its parameters lie.
    pub(super) fn count_ends(&mut self, second: u8, parameters: &[u8], before: &Before) {
        let s = &before.settings;
        let (name, ranges, parameters) = match (second, parameters) {
            (208, &[mode @ 0..=2, first, ..]) => (mode, mode_ranges(mode, first), &parameters[1..]),
            _ => {
                let screen = before.screen();
                (second, ranges(second, s.height(), s.lines(screen), s.columns(screen)), parameters)
            }
        };
        for (at, (&(low, high), &byte)) in ranges.iter().zip(parameters).enumerate() {
            let number = usize::from(byte);
            let end = match number {
                _ if number == low => "low",
                _ if number == high => "high",
                _ if number + 1 == low => "below",
                _ if number == high + 1 => "beyond",
                _ => continue,
            };
            if let Some(count) = self.ends.get_mut(&(end, name, at + 1)) {
                *count += 1;
            }
        }
    }
}
