//! Which settings are sound.

use super::settings::{mark_of, Keys, Settings, CHARSETS, HOME, MOST_LINES, SHIFTS};
use super::stream::stream_sound;

/// "Settings are sound exactly when each lies in the range that the rules
/// below give, cursors and windows are inside their screens, and step is 1
/// to H."
pub fn sound(settings: &Settings) -> bool {
    // The measures come first: the others are worked out from them.
    measures_sound(settings)
        && (0..settings.screens()).all(|screen| place_sound(settings, screen))
        && (settings.mode != 3 || alone_sound(settings))
        && switches_sound(settings)
        && keys_sound(&settings.keys)
        && stream_sound(settings)
        && marks_sound(settings, 0)
        && marks_sound(settings, 1)
}

/// The table of modes; the columns stand as the mode gives them.
fn measures_sound(s: &Settings) -> bool {
    let (lines1, lines2) = (u32::from(s.lines1), u32::from(s.lines2));
    let columns = (s.columns1, s.columns2);
    match s.mode {
        0 => lines1 >= 8 && lines2 >= 8 && lines1 + lines2 <= 48 && columns == (80, 80),
        1 => lines1 == lines2 && (16..=48).contains(&lines1) && columns == (39, 39),
        2 => {
            lines1 == lines2
                && (8..=48).contains(&lines1)
                && (1..=78).contains(&s.columns1)
                && s.columns2 == 79 - s.columns1
        }
        // "one text screen of 8 lines by 80"; "Screen 2 has no cells there"
        3 => (lines1, lines2) == (8, 0) && columns == (80, 0),
        _ => false,
    }
}

/// "Mode 3 is sound with type 3, key display 1, screen 1 selected, screen 2's
/// cursor and top at 1, its flag off."
fn alone_sound(s: &Settings) -> bool {
    s.kind == 3 && s.display == 1 && s.selected == 0 && s.places[1] == HOME
}

/// "Inside means: cursor line 1 to lines, cursor column 1 to columns, top 1
/// to lines−H+1, each of its own screen".
fn place_sound(s: &Settings, screen: usize) -> bool {
    let place = s.places[screen];
    (1..=s.lines(screen)).contains(&usize::from(place.line))
        && (1..=s.columns(screen)).contains(&usize::from(place.column))
        && (1..=s.greatest_top(screen)).contains(&usize::from(place.top))
        && flag_sound(s, screen)
}

/// "the flag is sound only in the last column under rule 2".
fn flag_sound(s: &Settings, screen: usize) -> bool {
    let place = s.places[screen];
    match place.waiting {
        0 => true,
        1 => s.rule == 2 && usize::from(place.column) == s.columns(screen),
        _ => false,
    }
}

/// "A screen's last line is never marked; sound settings include that." The
/// lines that a screen does not have are not marked either.
fn marks_sound(s: &Settings, screen: usize) -> bool {
    (1..=MOST_LINES).all(|line| match s.marks[mark_of(screen, line)] {
        0 => true,
        1 => line < s.lines(screen),
        _ => false,
    })
}

fn switches_sound(s: &Settings) -> bool {
    let flags = [s.selected, s.tracking, s.secret, s.cursor, s.display];
    flags.iter().all(|&flag| flag <= 1)
        && (1..=s.height()).contains(&usize::from(s.step))
        && s.kind <= 3
        && (1..=2).contains(&s.rule)
}

fn keys_sound(keys: &Keys) -> bool {
    keys.leds.iter().all(|&led| led <= 1)
        && CHARSETS.contains(&keys.charset)
        && keys.strings <= 1
        && keys.repeat <= 1
        && (1..=127).contains(&keys.delay)
        && (1..=127).contains(&keys.interval)
        && SHIFTS.contains(&keys.shift)
}
