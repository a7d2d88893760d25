//! Key repeats worked out from a trace, ours against `tuned::repeats`, under
//! the opening's settings but for the interval, which is 1:
//!
//! - `trace full`: the longest trace, 3,333 presses each released 140 ticks
//!   later (so 13 codes each), and an output that holds all codes
//! - `trace ten`: one key held for ten ticks
//! - `trace flood`: one held for 4,294,967,295, which no output here holds: 25
//!
//! In nanoseconds a call, the best of several runs by turns.

use crate::{RUNS, SHORTEST_RUN};
use std::hint::black_box;
use std::time::{Duration, Instant};

struct Case {
    name: &'static str,
    trace: Vec<u8>,
    room: usize,
}

fn record(kind: u8, tick: u32, key: u8) -> Vec<u8> {
    [&[5, 0, kind, 0][..], &tick.to_le_bytes(), &[key]].concat()
}

fn held(ticks: u32) -> Vec<u8> {
    [record(1, 0, b'0'), record(2, ticks, b'0')].concat()
}

fn cases() -> [Case; 3] {
    let pair = |at: u32| [record(1, 200 * at, b'0'), record(2, 200 * at + 140, b'0')].concat();
    let full: Vec<u8> = (0..3333).flat_map(pair).collect();
    [
        Case { name: "trace full", trace: full, room: 5 * 13 * 3333 },
        Case { name: "trace ten", trace: held(10), room: 100 },
        Case { name: "trace flood", trace: held(u32::MAX), room: 100 },
    ]
}

pub fn bench(word: &str) {
    for case in cases().iter().filter(|case| case.name.contains(word)) {
        let [ours, plain] = measure(case);
        println!("bench {} ours {ours:.1} plain {plain:.1} ratio {:.2}", case.name, ours / plain);
    }
}

fn measure(case: &Case) -> [f64; 2] {
    let (mut cells, mut layer) = ([0; px8::CELLS], [0; px8::LAYER]);
    let (mut shown, mut dots) = ([0; px8::SHOWN], [0; px8::DOTS]);
    let mut given = px8::opening(1, &mut cells, &mut layer, &mut shown, &mut dots).0;
    let mut plain_given = tuned::opening(1, &mut cells, &mut layer, &mut shown, &mut dots).0;
    given.keys.interval = 1;
    plain_given.keys.interval = 1;
    let ours = |output: &mut [u8]| {
        let repeats = px8::key_repeats(black_box(&given), black_box(&case.trace), output);
        (repeats.number, repeats.count as usize)
    };
    let plain = |output: &mut [u8]| {
        tuned::repeats::key_repeats(black_box(&plain_given), black_box(&case.trace), output)
    };
    let mut rounds = 1;
    while timed(&plain, case.room, rounds).0 < SHORTEST_RUN {
        rounds *= 2;
    }
    let mut best = [Duration::MAX; 2];
    for _ in 0..RUNS {
        let (left, right) = (timed(&ours, case.room, rounds), timed(&plain, case.room, rounds));
        assert!(left.1 == right.1, "{}: the two sides differ", case.name);
        best = [best[0].min(left.0), best[1].min(right.0)];
    }
    best.map(|time| time.as_nanos() as f64 / rounds as f64)
}

type Result = ((u8, usize), Vec<u8>);

fn timed(call: &dyn Fn(&mut [u8]) -> (u8, usize), room: usize, rounds: usize) -> (Duration, Result) {
    let mut output = vec![7; room];
    let mut answer = (0, 0);
    let begin = Instant::now();
    for _ in 0..rounds {
        answer = call(black_box(&mut output));
    }
    (begin.elapsed(), (answer, output))
}
