//! Sizes and offsets of the types, as the C header has them.

use px8::{Answer, Keys, Place, Repeats, Settings};
use std::mem::{align_of, offset_of, size_of};

#[test]
fn place() {
    assert_eq!((size_of::<Place>(), align_of::<Place>()), (4, 1));
    assert_eq!([offset_of!(Place, line), offset_of!(Place, column), offset_of!(Place, top)], [0, 1, 2]);
    assert_eq!(offset_of!(Place, late), 3);
}

#[test]
fn keys() {
    assert_eq!((size_of::<Keys>(), align_of::<Keys>()), (21, 1));
    assert_eq!(offset_of!(Keys, leds), 0);
    assert_eq!(offset_of!(Keys, charset), 3);
    assert_eq!(offset_of!(Keys, strings), 4);
    assert_eq!(offset_of!(Keys, repeat), 5);
    assert_eq!(offset_of!(Keys, delay), 6);
    assert_eq!(offset_of!(Keys, interval), 7);
    assert_eq!(offset_of!(Keys, shift), 8);
    assert_eq!(offset_of!(Keys, arrows), 9);
}

#[test]
fn settings() {
    assert_eq!((size_of::<Settings>(), align_of::<Settings>()), (408, 8));
    assert_eq!(offset_of!(Settings, marks), 0);
    assert_eq!(offset_of!(Settings, mode), 16);
    assert_eq!(offset_of!(Settings, lines1), 17);
    assert_eq!(offset_of!(Settings, lines2), 18);
    assert_eq!(offset_of!(Settings, columns1), 19);
    assert_eq!(offset_of!(Settings, columns2), 20);
    assert_eq!(offset_of!(Settings, boundary), 21);
    assert_eq!(offset_of!(Settings, selected), 22);
    assert_eq!(offset_of!(Settings, places), 23);
    assert_eq!(offset_of!(Settings, tracking), 31);
    assert_eq!(offset_of!(Settings, step), 32);
    assert_eq!(offset_of!(Settings, secret), 33);
    assert_eq!(offset_of!(Settings, cursor), 34);
    assert_eq!(offset_of!(Settings, display), 35);
    assert_eq!(offset_of!(Settings, kind), 36);
    assert_eq!(offset_of!(Settings, keys), 37);
    assert_eq!(offset_of!(Settings, rule), 58);
    assert_eq!(offset_of!(Settings, patterns), 59);
    assert_eq!(offset_of!(Settings, held), 307);
    assert_eq!(offset_of!(Settings, waiting), 308);
    assert_eq!(offset_of!(Settings, count), 320);
    assert_eq!(offset_of!(Settings, texts), 324);
}

#[test]
fn answer() {
    assert_eq!((size_of::<Answer>(), align_of::<Answer>()), (32, 8));
    assert_eq!(offset_of!(Answer, number), 0);
    assert_eq!(offset_of!(Answer, taken), 4);
    assert_eq!(offset_of!(Answer, accepted), 8);
    assert_eq!(offset_of!(Answer, refused), 12);
    assert_eq!(offset_of!(Answer, first), 16);
    assert_eq!(offset_of!(Answer, parameter), 17);
    assert_eq!(offset_of!(Answer, offset), 20);
    assert_eq!(offset_of!(Answer, printed), 24);
}

#[test]
fn repeats() {
    assert_eq!((size_of::<Repeats>(), align_of::<Repeats>()), (16, 8));
    assert_eq!((offset_of!(Repeats, number), offset_of!(Repeats, count)), (0, 8));
}

/// The crate is of the header's version, and links the symbols of its layout.
#[test]
fn version_and_layout() {
    let header = include_str!("../../../c/px8.h");
    let version = format!("#define PX8_VERSION \"{}\"\n", env!("CARGO_PKG_VERSION"));
    assert!(header.contains(&version), "{version}");
    assert!(
        header.contains("#define PX8_LAYOUT 2 ") && header.contains("#define px8_message px8_message_l2\n")
    );
}
