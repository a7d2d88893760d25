//! Pairs of screens with a list for their differences, named and random, and
//! the classes that they reach.

use crate::classes::Classes;
use crate::random::Random;
use reference::differences::Record;

pub struct Pair {
    pub first: Vec<u8>,
    pub second: Vec<u8>,
    /// the caller's list, as it stands before the call
    pub list: Vec<Record>,
}

#[rustfmt::skip]
pub const CLASSES: &[&str] = &[
    "equal screens", "equal screens and an empty list", "one difference", "all places differ",
    "differences: several in a row", "differences: several in a column", "first difference not the leftmost",
    "first difference at 1 1", "first difference in column 80", "only difference at 8 80",
    "list one too short", "list empty and too short", "list just long enough", "list longer by one",
    "list longer by more", "refused 1: first short", "refused 1: first long", "refused 1: second short",
    "refused 1: second long", "refused 1: both", "refused 1: same wrong size", "refused 1 with a list too short",
    "a first code above a second", "a first code below a second",
];

fn old(random: &mut Random) -> Record {
    let [row, column, first, second] = (random.number() as u32).to_le_bytes();
    Record { row, column, first, second }
}

fn blank_with(codes: &[(usize, u8)], list: usize) -> Pair {
    let mut second = vec![32; 640];
    for &(at, code) in codes {
        second[at] = code;
    }
    let old = Record { row: 9, column: 81, first: 1, second: 2 };
    Pair { first: vec![32; 640], second, list: vec![old; list] }
}

/// The request's own examples.
#[rustfmt::skip]
pub fn named() -> Vec<Pair> {
    let five = [(0, 1), (81, 2), (200, 3), (400, 4), (639, 5)];
    let mut short = blank_with(&five, 2);
    short.first.pop();
    vec![
        blank_with(&[(81, 65)], 640), blank_with(&[(79, 1), (80, 2)], 2), blank_with(&five, 4), blank_with(&five, 5),
        blank_with(&five, 9), blank_with(&[], 0), blank_with(&[], 3), blank_with(&[(639, 33)], 1), short,
    ]
}

pub fn random_pair(random: &mut Random) -> Pair {
    let mut first = vec![32; 640];
    match random.below(3) {
        0 => random.fill(&mut first),
        1 => first.iter_mut().for_each(|code| *code = b'A' + random.below(3) as u8),
        _ => {}
    }
    let mut second = first.clone();
    change(random, &mut second);
    let count = first.iter().zip(&second).filter(|(one, other)| one != other).count();
    let any = random.below(700);
    let length = random.pick(&[count, count, count + 1, count.saturating_sub(1), 0, 640, any]);
    let list = (0..length).map(|_| old(random)).collect();
    if random.one_in(8) {
        resize(random, &mut first, &mut second);
    }
    Pair { first, second, list }
}

/// Changes some places: a few, a row's, a column's, the edges', many, all.
fn change(random: &mut Random, screen: &mut [u8]) {
    let places: Vec<usize> = match random.below(8) {
        0 => Vec::new(),
        1 => vec![random.below(640)],
        2 => (0..random.between(2, 9)).map(|_| random.below(640)).collect(),
        3 => [80 * random.below(8); 2].iter().map(|start| start + random.below(80)).collect(),
        4 => [random.below(80); 3].iter().map(|start| start + 80 * random.below(8)).collect(),
        5 => [0, 79, 80, 159, 559, 560, 638, 639].into_iter().filter(|_| random.one_in(3)).collect(),
        6 => (0..640).filter(|_| random.one_in(2)).collect(),
        _ => (0..640).collect(),
    };
    for at in places {
        screen[at] ^= random.between(1, 255) as u8;
    }
}

fn resize(random: &mut Random, first: &mut Vec<u8>, second: &mut Vec<u8>) {
    let sizes = [0, 80, 639, 641, 720, random.below(640)];
    let (one, other) = match random.below(4) {
        0 => (random.pick(&sizes), 640),
        1 => (640, random.pick(&sizes)),
        2 => (random.pick(&sizes), random.pick(&sizes)),
        _ => [random.pick(&sizes); 2].into(),
    };
    first.resize(one, 1);
    second.resize(other, 2);
}

/// Counts the classes that a pair belongs to.
pub fn reached(pair: &Pair, (number, _): (u8, usize), classes: &mut Classes) {
    let Pair { first, second, list } = pair;
    let differs = |&at: &usize| first[at] != second[at];
    let places: Vec<usize> = (0..first.len().min(second.len())).filter(differs).collect();
    if number == 1 {
        return refused(first.len(), second.len(), list.len() < places.len(), classes);
    }
    lists(places.len(), list.len(), classes);
    match places[..] {
        [] => {
            classes.count("equal screens");
            return classes.count_if(list.is_empty(), "equal screens and an empty list");
        }
        [639] => classes.count("only difference at 8 80"),
        _ => {}
    }
    classes.count_if(places.len() == 1, "one difference");
    classes.count_if(places.len() == 640, "all places differ");
    classes.count_if(places[0] == 0, "first difference at 1 1");
    classes.count_if(places[0] % 80 == 79, "first difference in column 80");
    let leftmost = places.iter().map(|at| at % 80).min();
    classes.count_if(leftmost < Some(places[0] % 80), "first difference not the leftmost");
    let pairs = || places.iter().flat_map(|one| places.iter().map(move |other| (one, other)));
    if places.len() < 12 {
        let row = pairs().any(|(one, other)| one < other && one / 80 == other / 80);
        classes.count_if(row, "differences: several in a row");
        let column = pairs().any(|(one, other)| one < other && one % 80 == other % 80);
        classes.count_if(column, "differences: several in a column");
    }
    classes.count_if(first[places[0]] > second[places[0]], "a first code above a second");
    classes.count_if(first[places[0]] < second[places[0]], "a first code below a second");
}

fn lists(count: usize, length: usize, classes: &mut Classes) {
    classes.count_if(length + 1 == count, "list one too short");
    classes.count_if(length == 0 && count > 0, "list empty and too short");
    classes.count_if(length == count && count > 0, "list just long enough");
    classes.count_if(length == count + 1, "list longer by one");
    classes.count_if(length > count + 1, "list longer by more");
}

fn refused(first: usize, second: usize, short_list: bool, classes: &mut Classes) {
    classes.count_if(first < 640 && second == 640, "refused 1: first short");
    classes.count_if(first > 640 && second == 640, "refused 1: first long");
    classes.count_if(second < 640 && first == 640, "refused 1: second short");
    classes.count_if(second > 640 && first == 640, "refused 1: second long");
    classes.count_if(first != 640 && second != 640, "refused 1: both");
    classes.count_if(first == second, "refused 1: same wrong size");
    classes.count_if(short_list, "refused 1 with a list too short");
}
