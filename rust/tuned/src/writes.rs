//! Document 02, P7: a sequence judged where it stands and copied once.

use crate::sequences::{listed, Limits};
use crate::sound;
use reference::Settings;

pub fn write(
    settings: &Settings,
    second: u8,
    parameters: &[u8],
    buffer: &mut [u8],
    place: usize,
) -> (usize, u8, u8) {
    if !sound(settings) {
        return (place, 3, 0);
    }
    let parameters = if second == 209 && parameters.is_empty() { &[0] } else { parameters };
    let (needed, given) = (listed(second, parameters.first()), 2 + parameters.len());
    if given > needed {
        return (place, 10, 0);
    }
    if given < needed {
        return (place, 12, 0);
    }
    let misfit = Limits::of(settings).misfit(second, parameters);
    if misfit > 0 {
        return (place, 11, misfit);
    }
    match buffer.get_mut(place..).and_then(|space| space.get_mut(..given)) {
        Some(space) => {
            (space[0], space[1]) = (27, second);
            space[2..].copy_from_slice(parameters);
            (place + given, 0, 0)
        }
        None => (place, 22, 0),
    }
}
