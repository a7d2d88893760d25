//! Sequences written, ours against `tuned::writes`, under settings of each mode and 24
//! lines, in nanoseconds a sequence:
//!
//! - `write-mixed`: what a weighing program sends, by turns a cursor placing, an erased
//!   line, a window move, a selection, secret on and off, a mark; 64 of them one behind
//!   another from the start of a buffer that holds them all
//! - `write-pattern`: a pattern of a code, 11 bytes
//! - `write-refused`: a cursor placing that is out of its range
//!
//! The best of several runs by turns; both sides must write the same.

use crate::{RUNS, SHORTEST_RUN};
use std::hint::black_box;
use std::time::{Duration, Instant};

const COUNT: usize = 64;

struct Case {
    name: String,
    mode: &'static [u8],
    sequences: Vec<(u8, Vec<u8>)>,
}

fn mixed(at: usize) -> (u8, Vec<u8>) {
    let number = (at * 7 % 24) as u8;
    match at % 8 {
        0 | 1 => (61, vec![32 + number, 32 + number]),
        2 => (84, vec![]),
        3 => ([150, 151, 212, 213, 215][at % 5], vec![]),
        4 => (209, vec![0]),
        5 => (123, vec![]),
        6 => (125, vec![]),
        _ => (210, vec![1 + number % 8, 1 + number, b'*']),
    }
}

fn cases() -> Vec<Case> {
    let modes: [&[u8]; 3] = [&[27, 208, 0, 24, 24], &[27, 208, 1, 24], &[27, 208, 2, 24, 39, 124]];
    let pattern = |at: usize| (224, [&[224 + at as u8 % 31][..], &[170; 8]].concat());
    let mut cases: Vec<Case> = (0..3)
        .map(|mode| {
            let sequences = (0..COUNT).map(mixed).collect();
            Case { name: format!("write-mixed mode {mode}"), mode: modes[mode], sequences }
        })
        .collect();
    let one = |name: &str, sequences| Case { name: name.to_string(), mode: modes[0], sequences };
    cases.push(one("write-pattern", (0..COUNT).map(pattern).collect()));
    cases.push(one("write-refused", vec![(61, vec![56, 32]); COUNT]));
    cases
}

pub fn bench(word: &str) {
    for case in cases().iter().filter(|case| case.name.contains(word)) {
        let [ours, plain] = measure(case);
        println!("bench {} ours {ours:.1} plain {plain:.1} ratio {:.2}", case.name, ours / plain);
    }
}

/// Writes all sequences one behind another; the place reached, and the last number.
type Side<'a> = &'a dyn Fn(&mut [u8]) -> (usize, u8);

fn measure(case: &Case) -> [f64; 2] {
    let (mut cells, mut layer) = ([0; px8::CELLS], [0; px8::LAYER]);
    let (mut shown, mut dots) = ([0; px8::SHOWN], [0; px8::DOTS]);
    let mut given = px8::opening(1, &mut cells, &mut layer, &mut shown, &mut dots).0;
    let set = px8::message(&mut given, case.mode, &mut cells, &mut layer, &mut shown, &mut dots, &mut []);
    let mut plain_given = tuned::opening(1, &mut cells, &mut layer, &mut shown, &mut dots).0;
    tuned::message(&mut plain_given, case.mode, &mut cells, &mut layer, &mut shown, &mut dots, &mut []);
    assert!(set.is_clean(), "{}", case.name);
    let ours = |buffer: &mut [u8]| {
        case.sequences.iter().fold((0, 0), |(place, _), (second, parameters)| {
            let reached = px8::write(black_box(&given), *second, parameters, buffer, place);
            (reached.place, reached.number)
        })
    };
    // a plain function of another crate would be drawn into the loop
    let write = black_box(tuned::writes::write as fn(&_, u8, &[u8], &mut [u8], usize) -> _);
    let plain = |buffer: &mut [u8]| {
        case.sequences.iter().fold((0, 0), |(place, _), (second, parameters)| {
            let (place, number, _) = write(black_box(&plain_given), *second, parameters, buffer, place);
            (place, number)
        })
    };
    let mut rounds = 1;
    while timed(&plain, rounds).0 < SHORTEST_RUN {
        rounds *= 2;
    }
    let mut best = [Duration::MAX; 2];
    for _ in 0..RUNS {
        let (left, right) = (timed(&ours, rounds), timed(&plain, rounds));
        assert!(left.1 == right.1, "{}: the two sides differ", case.name);
        best = [best[0].min(left.0), best[1].min(right.0)];
    }
    best.map(|time| time.as_nanos() as f64 / (rounds * COUNT) as f64)
}

type Result = ((usize, u8), Vec<u8>);

fn timed(side: Side, rounds: usize) -> (Duration, Result) {
    let mut buffer = vec![7; 13 * COUNT];
    let mut answer = (0, 0);
    let begin = Instant::now();
    for _ in 0..rounds {
        answer = side(black_box(&mut buffer));
    }
    (begin.elapsed(), (answer, buffer))
}
