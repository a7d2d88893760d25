//! The calls on slices of any length: the boundary to the archive, with the unsafe
//! code that it needs. Settings and answers are lent, as in C; lengths are 64 bits wide on
//! every processor.

use crate::types::{Answer, Repeats, Settings};
use core::mem::MaybeUninit;

/// A call that reads bytes: a message, a short one, a piece, a pack. In the archive every
/// name ends with the number of the layout.
pub(crate) type Reading<A> = unsafe extern "C" fn(
    settings: *mut Settings,
    answer: *mut A,
    bytes: *const u8,
    bytes_length: u64,
    cells: *mut u8,
    cells_length: u64,
    layer: *mut u8,
    layer_length: u64,
    shown: *mut u8,
    shown_length: u64,
    dots: *mut u8,
    dots_length: u64,
    printer: *mut u8,
    printer_length: u64,
);

unsafe extern "C" {
    #[link_name = "px8_opening_l2"]
    fn px8_opening(
        settings: *mut Settings,
        rule: u64,
        cells: *mut u8,
        cells_length: u64,
        layer: *mut u8,
        layer_length: u64,
        shown: *mut u8,
        shown_length: u64,
        dots: *mut u8,
        dots_length: u64,
    ) -> u8;

    #[link_name = "px8_message_l2"]
    fn px8_message(
        settings: *mut Settings,
        answer: *mut Answer,
        message: *const u8,
        message_length: u64,
        cells: *mut u8,
        cells_length: u64,
        layer: *mut u8,
        layer_length: u64,
        shown: *mut u8,
        shown_length: u64,
        dots: *mut u8,
        dots_length: u64,
        printer: *mut u8,
        printer_length: u64,
    );

    #[link_name = "px8_message_short_l2"]
    fn px8_message_short(
        settings: *mut Settings,
        answer: *mut Answer,
        message: *const u8,
        message_length: u64,
        cells: *mut u8,
        cells_length: u64,
        layer: *mut u8,
        layer_length: u64,
        shown: *mut u8,
        shown_length: u64,
        dots: *mut u8,
        dots_length: u64,
        printer: *mut u8,
        printer_length: u64,
    );

    #[link_name = "px8_piece_l2"]
    fn px8_piece(
        settings: *mut Settings,
        answer: *mut Answer,
        piece: *const u8,
        piece_length: u64,
        cells: *mut u8,
        cells_length: u64,
        layer: *mut u8,
        layer_length: u64,
        shown: *mut u8,
        shown_length: u64,
        dots: *mut u8,
        dots_length: u64,
        printer: *mut u8,
        printer_length: u64,
    );

    #[link_name = "px8_closing_l2"]
    fn px8_closing(
        settings: *mut Settings,
        answer: *mut Answer,
        cells: *mut u8,
        cells_length: u64,
        layer: *mut u8,
        layer_length: u64,
        shown: *mut u8,
        shown_length: u64,
        dots: *mut u8,
        dots_length: u64,
    );

    #[link_name = "px8_key_text_l2"]
    fn px8_key_text(
        settings: *mut Settings,
        answer: *mut Answer,
        number: u64,
        text: *const u8,
        text_length: u64,
    );

    #[link_name = "px8_printed_l2"]
    fn px8_printed(buffer: *const u8, length: u64, count: u64) -> u64;

    #[link_name = "px8_key_repeats_l2"]
    fn px8_key_repeats(
        settings: *const Settings,
        answer: *mut Repeats,
        trace: *const u8,
        trace_length: u64,
        output: *mut u8,
        output_length: u64,
    );
}

/// Lends everything to a call that reads bytes, and hands its answer back.
///
/// # Safety
///
/// The call is one of the archive's, and `A` its answer.
#[inline(always)]
#[allow(clippy::too_many_arguments)] // the stores come one by one, as in C
pub(crate) unsafe fn read<A>(
    call: Reading<A>,
    settings: &mut Settings,
    bytes: &[u8],
    cells: &mut [u8],
    layer: &mut [u8],
    shown: &mut [u8],
    dots: &mut [u8],
    printer: &mut [u8],
) -> A {
    let mut answer = MaybeUninit::uninit();
    // SAFETY: each pointer goes with its own length, and exclusive borrows overlap
    // neither each other nor the bytes, which are only read. Any settings may be given, the
    // answer is written whole and not read, and the call keeps no pointer.
    unsafe {
        call(
            settings,
            answer.as_mut_ptr(),
            bytes.as_ptr(),
            bytes.len() as u64,
            cells.as_mut_ptr(),
            cells.len() as u64,
            layer.as_mut_ptr(),
            layer.len() as u64,
            shown.as_mut_ptr(),
            shown.len() as u64,
            dots.as_mut_ptr(),
            dots.len() as u64,
            printer.as_mut_ptr(),
            printer.len() as u64,
        );
        answer.assume_init()
    }
}

/// The opening call: the opening settings by rule 1 or 2, and 0. Unless the
/// stores are of their sizes it is refused with 1, by another rule with 23;
/// it then alters nothing, and returns the opening settings by rule 1.
///
/// ```
/// let (mut cells, mut layer) = ([0; px8::CELLS], [1; px8::LAYER]);
/// let (mut shown, mut dots) = ([0; px8::SHOWN], [1; px8::DOTS]);
/// let (settings, number) = px8::opening(1, &mut cells, &mut layer, &mut shown, &mut dots);
/// assert_eq!((number, settings.lines1, settings.keys.charset), (0, 24, b'U'));
/// assert!(cells.iter().chain(&shown).all(|&code| code == 32));
/// assert_eq!((layer, dots), ([0; px8::LAYER], [0; px8::DOTS]));
///
/// shown.fill(7);
/// let (same, number) = px8::opening(2, &mut cells, &mut layer, &mut shown, &mut dots[1..]);
/// assert_eq!((same, number, shown), (settings, px8::STORE_SIZE, [7; px8::SHOWN]));
/// let (same, number) = px8::opening(3, &mut cells, &mut layer, &mut shown, &mut dots);
/// assert_eq!((same, number, shown), (settings, px8::BAD_RULE, [7; px8::SHOWN]));
/// ```
#[inline]
pub fn opening(
    rule: usize,
    cells: &mut [u8],
    layer: &mut [u8],
    shown: &mut [u8],
    dots: &mut [u8],
) -> (Settings, u8) {
    let mut settings = MaybeUninit::uninit();
    // SAFETY: each pointer goes with its own length, and exclusive borrows do
    // not overlap. The settings are not read and always written whole, and the call keeps
    // no pointer.
    unsafe {
        let number = px8_opening(
            settings.as_mut_ptr(),
            rule as u64,
            cells.as_mut_ptr(),
            cells.len() as u64,
            layer.as_mut_ptr(),
            layer.len() as u64,
            shown.as_mut_ptr(),
            shown.len() as u64,
            dots.as_mut_ptr(),
            dots.len() as u64,
        );
        (settings.assume_init(), number)
    }
}

/// The message call: it alters the settings, and answers. Copies are
/// written to `printer` from its start; see [`printed`].
///
/// ```
/// let (mut cells, mut layer) = ([0; px8::CELLS], [0; px8::LAYER]);
/// let (mut shown, mut dots) = ([0; px8::SHOWN], [0; px8::DOTS]);
/// let (mut settings, _) = px8::opening(1, &mut cells, &mut layer, &mut shown, &mut dots);
/// let message = [65, 27, 27, 66];
/// let answer =
///     px8::message(&mut settings, &message, &mut cells, &mut layer, &mut shown, &mut dots, &mut []);
/// assert_eq!(answer.to_string(), "answer 0 taken 4 accepted 0 refused 1 first 10 at 1");
/// assert_eq!((&shown[..3], settings.places[0].column), (&b"AB "[..], 3));
/// ```
#[inline]
pub fn message(
    settings: &mut Settings,
    message: &[u8],
    cells: &mut [u8],
    layer: &mut [u8],
    shown: &mut [u8],
    dots: &mut [u8],
    printer: &mut [u8],
) -> Answer {
    // SAFETY: a call of the archive, with its answer.
    unsafe { read(px8_message, settings, message, cells, layer, shown, dots, printer) }
}

/// The short message call: the message call but that it paints less. Row 8 is always
/// painted whole; of rows 1 to 7 the places in which characters were printed, or all
/// where something else may have changed (the screen lifted, a window's top moved, a
/// sequence such as 27, 84 or 27, 209). Every other place is left as it was given: what
/// the shown screen held of the picture there is still the picture, so that from a
/// screen that was painted it ends as the message call does. Refused by 1, 2, 3 or 16.
///
/// ```
/// let (mut cells, mut layer) = ([0; px8::CELLS], [0; px8::LAYER]);
/// let (mut shown, mut dots) = ([0; px8::SHOWN], [0; px8::DOTS]);
/// let (mut settings, _) = px8::opening(1, &mut cells, &mut layer, &mut shown, &mut dots);
/// // a screen that shows nothing of what stands
/// shown.fill(b'?');
/// let answer =
///     px8::message_short(&mut settings, b"38", &mut cells, &mut layer, &mut shown, &mut dots, &mut []);
/// assert_eq!((answer.taken, settings.places[0].column), (2, 3));
/// assert_eq!((&shown[..4], &shown[560..]), (&b"38??"[..], &[32; 80][..]));
/// ```
#[inline]
pub fn message_short(
    settings: &mut Settings,
    message: &[u8],
    cells: &mut [u8],
    layer: &mut [u8],
    shown: &mut [u8],
    dots: &mut [u8],
    printer: &mut [u8],
) -> Answer {
    // SAFETY: a call of the archive, with its answer.
    unsafe { read(px8_message_short, settings, message, cells, layer, shown, dots, printer) }
}

/// The piece call: the next bytes of a stream, cut where they happen to be cut.
/// It is the message call but for this: what waits in the settings is read
/// before the piece, what is unfinished at its end waits, and offsets count
/// from the stream's start. Refused by 1, 2, 3 or 15.
///
/// ```
/// let (mut cells, mut layer) = ([0; px8::CELLS], [0; px8::LAYER]);
/// let (mut shown, mut dots) = ([0; px8::SHOWN], [0; px8::DOTS]);
/// let (mut settings, _) = px8::opening(1, &mut cells, &mut layer, &mut shown, &mut dots);
/// let answer =
///     px8::piece(&mut settings, &[65, 27], &mut cells, &mut layer, &mut shown, &mut dots, &mut []);
/// assert_eq!((answer.taken, answer.refused, settings.waiting()), (2, 0, &[27][..]));
/// let answer =
///     px8::piece(&mut settings, &[27, 66], &mut cells, &mut layer, &mut shown, &mut dots, &mut []);
/// assert_eq!(answer.to_string(), "answer 0 taken 2 accepted 0 refused 1 first 10 at 1");
/// assert_eq!((&shown[..3], settings.held, settings.count), (&b"AB "[..], 0, 4));
/// ```
#[inline]
pub fn piece(
    settings: &mut Settings,
    piece: &[u8],
    cells: &mut [u8],
    layer: &mut [u8],
    shown: &mut [u8],
    dots: &mut [u8],
    printer: &mut [u8],
) -> Answer {
    // SAFETY: a call of the archive, with its answer.
    unsafe { read(px8_piece, settings, piece, cells, layer, shown, dots, printer) }
}

/// The closing call: the stream ends. 27, 209 that waits then means 27, 209, 0,
/// another unfinished sequence is refused by 12; the shown screen is painted,
/// and the waiting bytes and the count are forgotten. It needs no printer
/// buffer: no unfinished sequence is a copy. Refused by 1 or 3.
///
/// ```
/// let (mut cells, mut layer) = ([0; px8::CELLS], [0; px8::LAYER]);
/// let (mut shown, mut dots) = ([0; px8::SHOWN], [0; px8::DOTS]);
/// let (mut settings, _) = px8::opening(1, &mut cells, &mut layer, &mut shown, &mut dots);
/// px8::piece(&mut settings, &[65, 27, 61], &mut cells, &mut layer, &mut shown, &mut dots, &mut []);
/// let answer = px8::closing(&mut settings, &mut cells, &mut layer, &mut shown, &mut dots);
/// assert_eq!(answer.to_string(), "answer 0 taken 0 accepted 0 refused 1 first 12 at 1");
/// assert_eq!((settings.held, settings.count), (0, 0));
/// ```
#[inline]
pub fn closing(
    settings: &mut Settings,
    cells: &mut [u8],
    layer: &mut [u8],
    shown: &mut [u8],
    dots: &mut [u8],
) -> Answer {
    let mut answer = MaybeUninit::uninit();
    // SAFETY: as of a call that reads bytes, without the bytes and a printer buffer.
    unsafe {
        px8_closing(
            settings,
            answer.as_mut_ptr(),
            cells.as_mut_ptr(),
            cells.len() as u64,
            layer.as_mut_ptr(),
            layer.len() as u64,
            shown.as_mut_ptr(),
            shown.len() as u64,
            dots.as_mut_ptr(),
            dots.len() as u64,
        );
        answer.assume_init()
    }
}

/// The key text call: key `number`, 1 to 10, gets this text of eight codes.
/// Nothing is painted: with the key line (27, 211, 0) the next message, piece or
/// closing shows it. Refused by 3, then by 17.
///
/// ```
/// let mut settings = *px8::Terminal::open().settings();
/// let answer = px8::key_text(&mut settings, 10, b"   TALLY");
/// assert_eq!((answer.number, &settings.texts[72..]), (px8::SERVED, &b"   TALLY"[..]));
/// let before = settings;
/// for (number, text) in [(0, &b"   TALLY"[..]), (11, b"   TALLY"), (257, b"   TALLY"), (1, b"  TALLY")] {
///     let answer = px8::key_text(&mut settings, number, text);
///     assert_eq!((settings, answer.number), (before, px8::BAD_KEY_TEXT));
/// }
/// ```
#[inline]
pub fn key_text(settings: &mut Settings, number: usize, text: &[u8]) -> Answer {
    let mut answer = MaybeUninit::uninit();
    // SAFETY: the text's pointer goes with its own length, and is only read. Any settings
    // may be given, the answer is written whole, and the call keeps no pointer.
    unsafe {
        px8_key_text(settings, answer.as_mut_ptr(), number as u64, text.as_ptr(), text.len() as u64);
        answer.assume_init()
    }
}

/// The printer call: the first `count` bytes of the buffer itself, or its
/// empty part if it is shorter.
///
/// ```
/// assert_eq!(px8::printed(b"weight", 3), b"wei");
/// assert_eq!(px8::printed(b"weight", 7), b"");
/// ```
#[inline]
pub fn printed(buffer: &[u8], count: u64) -> &[u8] {
    // SAFETY: the pointer goes with its own length, and is only read.
    let length = unsafe { px8_printed(buffer.as_ptr(), buffer.len() as u64, count) };
    &buffer[..length as usize]
}

/// Works out which codes a trace of presses and releases sends under the key
/// repeat of the settings. They are written to `output` from its start, five
/// bytes each: tick and key. The trace is records of nine bytes: 5, 0, the kind
/// (1, 0 a press; 2, 0 a release), the tick in four bytes, the key. Refused by
/// 3, 19, 20, 21, 24 or 25, it writes nothing.
///
/// ```
/// let settings = *px8::Terminal::open().settings();
/// let trace = [[5, 0, 1, 0, 0, 0, 0, 0, b'A'], [5, 0, 2, 0, 160, 0, 0, 0, b'A']].concat();
/// let mut output = [7; 16];
/// let repeats = px8::key_repeats(&settings, &trace, &mut output);
/// assert_eq!((repeats.number, repeats.count), (px8::SERVED, 3));
/// assert_eq!(output, [0, 0, 0, 0, 65, 128, 0, 0, 0, 65, 144, 0, 0, 0, 65, 7]);
/// let repeats = px8::key_repeats(&settings, &trace, &mut output[..14]);
/// assert_eq!((repeats.number, repeats.count), (px8::OUTPUT_TOO_SMALL, 0));
/// ```
#[inline]
pub fn key_repeats(settings: &Settings, trace: &[u8], output: &mut [u8]) -> Repeats {
    let mut answer = MaybeUninit::uninit();
    // SAFETY: each pointer goes with its own length, and an exclusive borrow
    // does not overlap the trace and the settings, which are only read. The answer is
    // written whole, and the call keeps no pointer.
    unsafe {
        px8_key_repeats(
            settings,
            answer.as_mut_ptr(),
            trace.as_ptr(),
            trace.len() as u64,
            output.as_mut_ptr(),
            output.len() as u64,
        );
        answer.assume_init()
    }
}
