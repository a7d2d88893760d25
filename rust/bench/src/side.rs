//! The sides: what each takes and shows. Ours and the plain one have the same
//! stores, and the calls of one implementation; settings are lent on both.

use crate::from_board::settings_from_board;
use reference::{Answer, Settings};

/// A side that takes messages, and has all 640 places ready after each.
pub trait Takes {
    fn message(&mut self, message: &[u8]);

    fn shown(&self) -> &[u8];
}

/// The calls of one implementation, on its own type of settings. Each call says whether it
/// was served with no refusal.
pub trait Calls: Clone {
    type Settings: Copy;

    /// The same settings for all, to compare them.
    fn plain(settings: &Self::Settings) -> Settings;

    /// Puts the cursors back to where they are in `start`.
    fn put_back(settings: &mut Self::Settings, start: &Self::Settings);

    /// Puts the stream back to where it is in `start`.
    fn wait_again(settings: &mut Self::Settings, start: &Self::Settings);

    fn opening(stores: &mut Stores) -> Self::Settings;

    fn message(settings: &mut Self::Settings, message: &[u8], stores: &mut Stores) -> bool;

    fn message_short(settings: &mut Self::Settings, message: &[u8], stores: &mut Stores) -> bool;

    fn piece(settings: &mut Self::Settings, piece: &[u8], stores: &mut Stores) -> bool;

    fn pack(settings: &mut Self::Settings, pack: &[u8], stores: &mut Stores) -> bool;

    fn closing(settings: &mut Self::Settings, stores: &mut Stores) -> bool;
}

/// The four stores behind each other, each aligned to 64 bytes and not all to the same
/// offset of a page: there a load can wait for a store that has nothing to do with it.
#[derive(Clone, PartialEq)]
#[repr(C, align(64))]
pub struct Stores {
    pub cells: [u8; 3840],
    pub layer: [u8; 1280],
    pub shown: [u8; 640],
    pub dots: [u8; 3840],
}

/// The proved library.
#[derive(Clone)]
pub struct Board;

impl Calls for Board {
    type Settings = px8::Settings;

    fn plain(settings: &px8::Settings) -> Settings {
        settings_from_board(settings)
    }

    fn put_back(settings: &mut px8::Settings, start: &px8::Settings) {
        settings.places = start.places;
    }

    fn wait_again(settings: &mut px8::Settings, start: &px8::Settings) {
        (settings.held, settings.waiting, settings.count) = (start.held, start.waiting, start.count);
    }

    fn opening(stores: &mut Stores) -> px8::Settings {
        let Stores { cells, layer, shown, dots } = stores;
        px8::opening(1, cells, layer, shown, dots).0
    }

    fn message(settings: &mut px8::Settings, message: &[u8], stores: &mut Stores) -> bool {
        let Stores { cells, layer, shown, dots } = stores;
        px8::message(settings, message, cells, layer, shown, dots, &mut []).is_clean()
    }

    fn message_short(settings: &mut px8::Settings, message: &[u8], stores: &mut Stores) -> bool {
        let Stores { cells, layer, shown, dots } = stores;
        px8::message_short(settings, message, cells, layer, shown, dots, &mut []).is_clean()
    }

    fn piece(settings: &mut px8::Settings, piece: &[u8], stores: &mut Stores) -> bool {
        let Stores { cells, layer, shown, dots } = stores;
        px8::piece(settings, piece, cells, layer, shown, dots, &mut []).is_clean()
    }

    fn pack(settings: &mut px8::Settings, pack: &[u8], stores: &mut Stores) -> bool {
        let Stores { cells, layer, shown, dots } = stores;
        px8::pack(settings, pack, cells, layer, shown, dots, &mut []).0.is_clean()
    }

    fn closing(settings: &mut px8::Settings, stores: &mut Stores) -> bool {
        let Stores { cells, layer, shown, dots } = stores;
        px8::closing(settings, cells, layer, shown, dots).is_clean()
    }
}

/// Plain Rust made fast.
#[derive(Clone)]
pub struct Plain;

fn is_clean(answer: Answer) -> bool {
    answer.number == 0 && answer.refused == 0
}

impl Calls for Plain {
    type Settings = Settings;

    fn plain(settings: &Settings) -> Settings {
        *settings
    }

    fn put_back(settings: &mut Settings, start: &Settings) {
        settings.places = start.places;
    }

    fn wait_again(settings: &mut Settings, start: &Settings) {
        (settings.held, settings.waiting, settings.count) = (start.held, start.waiting, start.count);
    }

    fn opening(stores: &mut Stores) -> Settings {
        let Stores { cells, layer, shown, dots } = stores;
        tuned::opening(1, cells, layer, shown, dots).0
    }

    fn message(settings: &mut Settings, message: &[u8], stores: &mut Stores) -> bool {
        let Stores { cells, layer, shown, dots } = stores;
        is_clean(tuned::message(settings, message, cells, layer, shown, dots, &mut []))
    }

    fn message_short(settings: &mut Settings, message: &[u8], stores: &mut Stores) -> bool {
        let Stores { cells, layer, shown, dots } = stores;
        is_clean(tuned::message_short(settings, message, cells, layer, shown, dots, &mut []))
    }

    fn piece(settings: &mut Settings, piece: &[u8], stores: &mut Stores) -> bool {
        let Stores { cells, layer, shown, dots } = stores;
        is_clean(tuned::piece(settings, piece, cells, layer, shown, dots, &mut []))
    }

    fn pack(settings: &mut Settings, pack: &[u8], stores: &mut Stores) -> bool {
        let Stores { cells, layer, shown, dots } = stores;
        is_clean(tuned::pack(settings, pack, cells, layer, shown, dots, &mut []).0)
    }

    fn closing(settings: &mut Settings, stores: &mut Stores) -> bool {
        let Stores { cells, layer, shown, dots } = stores;
        is_clean(tuned::closing(settings, cells, layer, shown, dots))
    }
}

#[derive(Clone)]
#[repr(C)]
pub struct Side<C: Calls> {
    pub stores: Stores,
    pub settings: C::Settings,
    /// No message so far was refused, nor a sequence of one.
    clean: bool,
}

impl<C: Calls> Side<C> {
    /// Opened, and brought to the start by these messages.
    pub fn start(messages: &[Vec<u8>]) -> Side<C> {
        let mut stores = Stores { cells: [0; 3840], layer: [0; 1280], shown: [0; 640], dots: [0; 3840] };
        let settings = C::opening(&mut stores);
        let mut side = Side { stores, settings, clean: true };
        for message in messages {
            side.message(message);
        }
        side
    }

    pub fn message_short(&mut self, message: &[u8]) {
        self.clean &= C::message_short(&mut self.settings, message, &mut self.stores);
    }

    pub fn piece(&mut self, piece: &[u8]) {
        self.clean &= C::piece(&mut self.settings, piece, &mut self.stores);
    }

    pub fn pack(&mut self, pack: &[u8]) {
        self.clean &= C::pack(&mut self.settings, pack, &mut self.stores);
    }

    pub fn closing(&mut self) {
        self.clean &= C::closing(&mut self.settings, &mut self.stores);
    }

    /// Whether both did the same work: the input is meant to be accepted whole.
    pub fn same_as<D: Calls>(&self, other: &Side<D>) -> bool {
        self.same_stores(other) && C::plain(&self.settings) == D::plain(&other.settings)
    }

    /// The same but for the settings.
    pub fn same_stores<D: Calls>(&self, other: &Side<D>) -> bool {
        self.clean && other.clean && self.stores == other.stores
    }
}

impl<C: Calls> Takes for Side<C> {
    fn message(&mut self, message: &[u8]) {
        self.clean &= C::message(&mut self.settings, message, &mut self.stores);
    }

    fn shown(&self) -> &[u8] {
        &self.stores.shown
    }
}
