//! libvterm, a terminal of the VT100's kind in C: its parser, its screen of 24
//! by 80, and the eight rows around its cursor read back after every message.

use crate::side::Takes;
use std::ffi::{c_char, c_int};
use std::ptr::NonNull;

const LINES: usize = 24;
const ROWS: usize = 8;
const WIDTH: usize = 80;

/// What libvterm keeps; only pointers to it are handed about.
#[repr(C)]
struct Opaque {
    _private: [u8; 0],
}

/// `VTermPos`.
#[repr(C)]
struct Position {
    row: c_int,
    column: c_int,
}

/// `VTermRect`: rows and columns from 0, the ends not included.
#[repr(C)]
struct Area {
    first_row: c_int,
    end_row: c_int,
    first_column: c_int,
    end_column: c_int,
}

extern "C" {
    fn vterm_new(rows: c_int, columns: c_int) -> *mut Opaque;
    fn vterm_free(terminal: *mut Opaque);
    fn vterm_input_write(terminal: *mut Opaque, bytes: *const c_char, length: usize) -> usize;
    fn vterm_obtain_state(terminal: *mut Opaque) -> *mut Opaque;
    fn vterm_state_get_cursorpos(state: *const Opaque, position: *mut Position);
    fn vterm_obtain_screen(terminal: *mut Opaque) -> *mut Opaque;
    fn vterm_screen_reset(screen: *mut Opaque, hard: c_int);
    fn vterm_screen_get_text(screen: *const Opaque, text: *mut c_char, length: usize, area: Area) -> usize;
}

pub const VERSION: &str = env!("VTERM_VERSION");

/// A terminal of libvterm, and what its window shows.
pub struct Vterm {
    terminal: NonNull<Opaque>,
    state: *const Opaque,
    screen: *const Opaque,
    /// The window's first row, from 0: it follows the cursor.
    top: usize,
    shown: [u8; ROWS * WIDTH],
}

impl Vterm {
    /// A new terminal that has taken these bytes.
    pub fn start(bytes: &[u8]) -> Option<Vterm> {
        // SAFETY: a terminal has its state and screen as long as it lives, and
        // the screen is reset before anything is written, as libvterm asks.
        let (terminal, state, screen) = unsafe {
            let terminal = NonNull::new(vterm_new(LINES as c_int, WIDTH as c_int))?;
            let state = vterm_obtain_state(terminal.as_ptr());
            let screen = vterm_obtain_screen(terminal.as_ptr());
            vterm_screen_reset(screen, 1);
            (terminal, state, screen)
        };
        let mut vterm = Vterm { terminal, state, screen, top: 0, shown: [32; ROWS * WIDTH] };
        vterm.write(bytes);
        Some(vterm)
    }

    fn write(&mut self, bytes: &[u8]) {
        // SAFETY: the pointer goes with its length, and is only read.
        let taken = unsafe { vterm_input_write(self.terminal.as_ptr(), bytes.as_ptr().cast(), bytes.len()) };
        assert_eq!(taken, bytes.len());
    }

    /// Moves the window by the least amount, if it misses the cursor.
    fn follow(&mut self) {
        let mut position = Position { row: 0, column: 0 };
        // SAFETY: the state is the living terminal's, and the position is ours.
        unsafe { vterm_state_get_cursorpos(self.state, &mut position) };
        let row = position.row as usize;
        self.top = self.top.min(row).max((row + 1).saturating_sub(ROWS));
    }

    /// Reads all 640 places back, a row at a time: libvterm leaves out the
    /// blanks that nothing was printed on at a row's end.
    fn read_back(&mut self) {
        for (row, places) in (self.top as c_int..).zip(self.shown.chunks_exact_mut(WIDTH)) {
            let area = Area { first_row: row, end_row: row + 1, first_column: 0, end_column: WIDTH as c_int };
            // SAFETY: the screen is the living terminal's; the pointer goes
            // with its length.
            let length =
                unsafe { vterm_screen_get_text(self.screen, places.as_mut_ptr().cast(), WIDTH, area) };
            places[length..].fill(32);
        }
    }
}

impl Takes for Vterm {
    fn message(&mut self, message: &[u8]) {
        self.write(message);
        self.follow();
        self.read_back();
    }

    fn shown(&self) -> &[u8] {
        &self.shown
    }
}

impl Drop for Vterm {
    fn drop(&mut self) {
        // SAFETY: nothing uses the terminal, its state or its screen any more.
        unsafe { vterm_free(self.terminal.as_ptr()) }
    }
}
