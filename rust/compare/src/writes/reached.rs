//! The classes that written sequences reach: every sequence, every number and which
//! of two comes first, every kind of place.

use super::{List, Reached, Sequence};
use crate::classes::Classes;
use reference::read::length;
use reference::{sound, Settings};

/// Every second byte of the list, as written; 208 is counted by its mode.
#[rustfmt::skip]
pub const WRITTEN: &[(u8, &str)] = &[
    (37, "37 written"), (42, "42 written"), (50, "50 written"), (51, "51 written"), (61, "61 written"), (67, "67 written"),
    (80, "80 written"), (84, "84 written"), (89, "89 written"), (123, "123 written"), (125, "125 written"), (144, "144 written"),
    (145, "145 written"), (148, "148 written"), (149, "149 written"), (150, "150 written"), (151, "151 written"),
    (160, "160 written"), (161, "161 written"), (162, "162 written"), (163, "163 written"), (164, "164 written"),
    (165, "165 written"), (176, "176 written"), (177, "177 written"), (198, "198 written"), (199, "199 written"),
    (209, "209 written"), (210, "210 written"), (211, "211 written"), (212, "212 written"), (213, "213 written"),
    (214, "214 written"), (215, "215 written"), (224, "224 written"), (240, "240 written"), (241, "241 written"),
    (242, "242 written"), (243, "243 written"), (244, "244 written"), (245, "245 written"), (246, "246 written"), (247, "247 written"),
];

#[rustfmt::skip]
pub const CLASSES: &[&str] = &[
    "208 to mode 0 written", "208 to mode 1 written", "208 to mode 2 written", "208 to mode 3 written",
    "answer 0 in mode 0", "answer 0 in mode 1", "answer 0 in mode 2", "answer 0 in mode 3",
    "answer 3", "answer 10", "answer 11", "answer 12", "answer 22",
    "order: 3 with 10", "order: 3 with 11", "order: 3 with 12", "order: 3 with 22", "order: 10 with 22", "order: 11 with 22", "order: 12 with 22",
    "11 by parameter 1", "11 by parameter 2", "11 by parameter 3", "11 by parameter 4", "11 by parameter 6", "11 by parameter 8", "11 by parameter 11",
    "11 in mode 0", "11 in mode 1", "11 in mode 2", "11 in mode 3",
    "10 by the second byte", "10 by one parameter too many", "10 by twelve parameters", "10 by another mode's parameters",
    "12 by one too few", "12 by none", "12 by no mode byte", "11 by the mode byte", "209 without its byte",
    "written while bytes wait", "refused by 11 while bytes wait", "3 by what waits", "copy in mode 3",
    "idle in mode 3, bad elsewhere", "198 or 199 in modes 0 to 2, bad in mode 3",
    "ends just at the buffer's end", "one byte too few", "place at the buffer's end", "place past the buffer", "place of nearly 2^64", "buffer empty",
    "before other bytes", "three or more in one buffer", "refused between two written", "a last byte of 27 before another",
];

/// Counts the classes that a list belongs to.
pub fn reached(list: &List, answers: &[(usize, Reached)], classes: &mut Classes) {
    for (sequence, &(place, answer)) in list.sequences.iter().zip(answers) {
        numbers(list, sequence, place, answer, classes);
        spaces(list, sequence, place, answer, classes);
    }
    let served: Vec<bool> = answers.iter().map(|(_, answer)| answer.1 == 0).collect();
    classes.count_if(served.iter().filter(|&&served| served).count() >= 3, "three or more in one buffer");
    classes
        .count_if(served.windows(3).any(|three| three == [true, false, true]), "refused between two written");
    let ends = |at: usize| served[at] && served[at + 1] && list.sequences[at].1.last() == Some(&27);
    classes.count_if((1..served.len()).any(|at| ends(at - 1)), "a last byte of 27 before another");
}

fn numbers(
    list: &List,
    sequence: &Sequence,
    place: usize,
    (_, number, parameter): Reached,
    classes: &mut Classes,
) {
    let settings = &list.settings;
    let holds = list.buffer.len().saturating_sub(place) >= 2 + sequence.1.len();
    let by_mode = |names: [&'static str; 4]| names[usize::from(settings.mode)];
    match number {
        0 => {
            classes.count(by_mode([
                "answer 0 in mode 0",
                "answer 0 in mode 1",
                "answer 0 in mode 2",
                "answer 0 in mode 3",
            ]));
            written(settings, sequence, classes);
        }
        3 => unsound(settings, sequence, holds, classes),
        10 => {
            classes.count("answer 10");
            classes.count_if(!holds, "order: 10 with 22");
            too_many(sequence, classes);
        }
        11 => {
            classes.count("answer 11");
            classes.count_if(!holds, "order: 11 with 22");
            classes.count_if(settings.held > 0, "refused by 11 while bytes wait");
            classes.count_if(sequence.0 == 208 && parameter == 1, "11 by the mode byte");
            classes.count(by_mode(["11 in mode 0", "11 in mode 1", "11 in mode 2", "11 in mode 3"]));
            classes.count(named_parameter(parameter));
        }
        12 => {
            classes.count("answer 12");
            classes.count_if(!holds, "order: 12 with 22");
            too_few(sequence, classes);
        }
        _ => classes.count("answer 22"),
    }
}

fn named_parameter(parameter: u8) -> &'static str {
    match parameter {
        1 => "11 by parameter 1",
        2 => "11 by parameter 2",
        3 => "11 by parameter 3",
        4 => "11 by parameter 4",
        6 => "11 by parameter 6",
        8 => "11 by parameter 8",
        _ => "11 by parameter 11",
    }
}

fn written(settings: &Settings, (second, parameters): &Sequence, classes: &mut Classes) {
    match (second, parameters.first()) {
        (208, Some(0)) => classes.count("208 to mode 0 written"),
        (208, Some(1)) => classes.count("208 to mode 1 written"),
        (208, Some(2)) => classes.count("208 to mode 2 written"),
        (208, _) => classes.count("208 to mode 3 written"),
        _ => classes.count(WRITTEN.iter().find(|(listed, _)| listed == second).expect("it is in the list").1),
    }
    let bad = |mode: u8| {
        let other = Settings { mode, ..*settings };
        let judged = reference::read::judged(*second, parameters, &other, 3840);
        matches!(judged, reference::read::Item::Refusal { .. })
    };
    classes.count_if(settings.held > 0, "written while bytes wait");
    classes.count_if(settings.mode == 3 && *second == 80, "copy in mode 3");
    let drawing = matches!(second, 198 | 199) && settings.mode != 3;
    classes.count_if(drawing && bad(3), "198 or 199 in modes 0 to 2, bad in mode 3");
    let idle = settings.mode == 3 && matches!(second, 148 | 149 | 209 | 211 | 214) && !parameters.is_empty();
    classes.count_if(idle && bad(0), "idle in mode 3, bad elsewhere");
    classes.count_if(*second == 209 && parameters.is_empty(), "209 without its byte");
}

/// What 3 goes before; the reader is asked as if all else were sound.
fn unsound(settings: &Settings, (second, parameters): &Sequence, holds: bool, classes: &mut Classes) {
    classes.count("answer 3");
    let stream = Settings { held: 0, waiting: [0; 12], count: 0, ..*settings };
    classes.count_if(sound(&stream), "3 by what waits");
    classes.count_if(!holds, "order: 3 with 22");
    match length(*second, parameters.first().copied()).map(|length| length.cmp(&(2 + parameters.len()))) {
        None | Some(std::cmp::Ordering::Less) => classes.count("order: 3 with 10"),
        Some(std::cmp::Ordering::Greater) => classes.count_if(*second != 209, "order: 3 with 12"),
        // out of its range by any settings
        _ => classes.count_if(*second == 61 && parameters[0] < 32, "order: 3 with 11"),
    }
}

fn too_many((second, parameters): &Sequence, classes: &mut Classes) {
    match length(*second, parameters.first().copied()) {
        None => classes.count("10 by the second byte"),
        Some(length) => {
            classes.count_if(length + 1 == 2 + parameters.len(), "10 by one parameter too many");
            classes.count_if(*second == 208 && parameters.len() <= 4, "10 by another mode's parameters");
        }
    }
    classes.count_if(parameters.len() >= 12, "10 by twelve parameters");
}

fn too_few((second, parameters): &Sequence, classes: &mut Classes) {
    let length = length(*second, parameters.first().copied()).expect("it is in the list");
    classes.count_if(length == 3 + parameters.len(), "12 by one too few");
    classes.count_if(parameters.is_empty(), "12 by none");
    classes.count_if(*second == 208 && parameters.is_empty(), "12 by no mode byte");
}

fn spaces(
    list: &List,
    (_, parameters): &Sequence,
    place: usize,
    (end, number, _): Reached,
    classes: &mut Classes,
) {
    let length = list.buffer.len();
    classes.count_if(length == 0, "buffer empty");
    classes.count_if(place == length && number == 22, "place at the buffer's end");
    classes.count_if(place > length && number == 22, "place past the buffer");
    classes.count_if(place > usize::MAX - 13 && number == 22, "place of nearly 2^64");
    let short = place < length && place + 2 + parameters.len() == length + 1;
    classes.count_if(number == 22 && short, "one byte too few");
    classes.count_if(number == 0 && end == length, "ends just at the buffer's end");
    classes.count_if(number == 0 && end < length, "before other bytes");
}
