//! Two screens side by side: the two calls of document 02's P4, in
//! nanoseconds a call, ours against `tuned::screens`. Screens of blanks, the
//! second with as many other codes as the name says, at fixed places spread
//! over it; a list of 640 records. The plain side is called through a pointer, as
//! the archive is: neither can be inlined.

use crate::{RUNS, SHORTEST_RUN};
use reference::differences::Record;
use std::hint::black_box;
use std::time::{Duration, Instant};

type CompareCall = fn(&[u8], &[u8], &mut [Record]) -> (u8, usize);
type FirstCall = fn(&[u8], &[u8]) -> (u8, Option<Record>);

const COUNTS: [usize; 4] = [0, 5, 80, 640];

/// A line's name, and the best time of each side, ours first.
pub fn lines(word: &str) -> Vec<(String, [f64; 2])> {
    let mut lines = Vec::new();
    for count in COUNTS {
        let (first, second) = pair(count);
        let name = format!("compare-{count}");
        if name.contains(word) {
            let call: CompareCall = black_box(tuned::screens::compare);
            lines.push((name, both(|| ours(&first, &second), || plain(call, &first, &second))));
        }
        let name = format!("first-difference-{count}");
        if name.contains(word) {
            let ours = || px8::first_difference(black_box(&first), black_box(&second)).is_ok();
            let call: FirstCall = black_box(tuned::screens::first_difference);
            let plain = || call(black_box(&first), black_box(&second)).0 == 0;
            lines.push((name, both(ours, plain)));
        }
    }
    lines
}

/// Blanks, and blanks with `count` other codes: 7 has no divisor with 640, so
/// that every step of it is another place.
fn pair(count: usize) -> ([u8; 640], [u8; 640]) {
    let mut second = [32; 640];
    for step in 0..count {
        second[(321 + 7 * step) % 640] = 65;
    }
    ([32; 640], second)
}

fn ours(first: &[u8], second: &[u8]) -> bool {
    let mut list = [px8::Difference::default(); 640];
    let count = px8::compare(black_box(first), black_box(second), &mut list);
    black_box(&list);
    count.is_ok()
}

fn plain(call: CompareCall, first: &[u8], second: &[u8]) -> bool {
    let mut list = [Record { row: 0, column: 0, first: 0, second: 0 }; 640];
    let (number, _) = call(black_box(first), black_box(second), &mut list);
    black_box(&list);
    number == 0
}

fn both(ours: impl Fn() -> bool, plain: impl Fn() -> bool) -> [f64; 2] {
    let mut rounds = 1;
    while timed(&plain, rounds) < SHORTEST_RUN {
        rounds *= 2;
    }
    let mut best = [Duration::MAX; 2];
    for _ in 0..RUNS {
        best[0] = best[0].min(timed(&ours, rounds));
        best[1] = best[1].min(timed(&plain, rounds));
    }
    best.map(|time| time.as_nanos() as f64 / rounds as f64)
}

fn timed(call: &impl Fn() -> bool, rounds: usize) -> Duration {
    let begin = Instant::now();
    for _ in 0..rounds {
        assert!(call());
    }
    begin.elapsed()
}
