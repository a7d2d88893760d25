//! What stands, taken down before an item is applied.

use reference::apply::Standing;
use reference::dots::{self, Dot};
use reference::settings::MARKS;
use reference::{Place, Settings};

/// What stood before an item.
pub struct Before {
    pub settings: Settings,
    pub place: Place,
    pub marks: usize,
    pub codes: usize,
    pub printed: usize,
    pub any_dots: bool,
    /// in mode 3 alone
    dots: Vec<u8>,
}

impl Before {
    pub fn of(standing: &Standing) -> Before {
        Before {
            settings: standing.settings,
            place: standing.settings.places[usize::from(standing.settings.selected)],
            marks: filled(&standing.layer[..MARKS]),
            codes: filled(&standing.layer[MARKS..]),
            printed: standing.printed,
            any_dots: standing.dots.iter().any(|&byte| byte != 0),
            dots: if standing.settings.mode == 3 { standing.dots.to_vec() } else { Vec::new() },
        }
    }

    /// Of a dot, in mode 3.
    pub fn is_on(&self, dot: Dot) -> bool {
        dots::is_on(&self.dots, dot)
    }

    pub fn mode(&self) -> usize {
        self.settings.mode.into()
    }

    pub fn screen(&self) -> usize {
        self.settings.selected.into()
    }

    pub fn in_last_line(&self) -> bool {
        usize::from(self.place.line) == self.settings.lines(self.screen())
    }

    /// Whether printing goes to the next line.
    pub fn leaves_its_line(&self) -> bool {
        match self.settings.rule {
            1 => self.in_last_column(),
            _ => self.place.waiting == 1,
        }
    }

    /// Line and column of the cell that printing stores in, where it does not
    /// lift the screen.
    pub fn printed_at(&self) -> (usize, usize) {
        let (line, column) = (self.place.line.into(), self.place.column.into());
        if self.place.waiting == 1 {
            (line + 1, 1)
        } else {
            (line, column)
        }
    }

    pub fn in_last_column(&self) -> bool {
        usize::from(self.place.column) == self.settings.columns(self.screen())
    }
}

/// How many bytes are not 0; block by block, since it is asked at each item.
pub fn filled(bytes: &[u8]) -> usize {
    let block = |block: &[u8]| block.iter().map(|&byte| u8::from(byte != 0)).sum::<u8>();
    bytes.chunks(128).map(|bytes| usize::from(block(bytes))).sum()
}
