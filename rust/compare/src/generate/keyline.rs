//! Key texts: keys and lengths that are right, and those around them.

use super::Kind;
use crate::random::Random;

/// Most often a key; 257 is key 1 to whoever looks at a byte.
pub fn kind(random: &mut Random) -> Kind {
    let key = random.between(1, 10);
    let far = random.pick(&[256, 257, 266, 1 << 32, (1 << 32) + 1, usize::MAX]);
    Kind::KeyText(random.pick(&[key, key, key, key, key, 1, 10, 0, 11, far]))
}

/// Most often eight codes.
pub fn text(random: &mut Random) -> Vec<u8> {
    let other = random.pick(&[0, 1, 7, 7, 9, 9, 16, 80, 264]);
    let mut text = vec![0; if random.one_in(4) { other } else { 8 }];
    random.fill(&mut text);
    text
}
