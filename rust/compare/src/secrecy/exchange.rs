//! What is sent in the second run: the first's bytes, but for those that are "read as
//! printed" and the codes of key texts. Which bytes these are is told by the list of
//! lengths alone.

use crate::generate::{Call, Kind};
use crate::random::Random;
use reference::read::{length, ESC};
use reference::stream::waits;
use reference::Settings;

/// What a byte of a call is read as.
#[derive(Clone, Copy, PartialEq, Eq)]
pub enum Role {
    /// printed
    Printed,
    /// the parameter of a 37, which prints it
    Of37,
    /// the byte behind an ESC
    Second,
    /// a code of a key text
    Text,
    Other,
}

/// The roles of a call's bytes, if it is served under these settings.
pub fn roles(call: &Call, settings: &Settings) -> Vec<Role> {
    let sent = &call.message[..];
    match call.kind {
        Kind::Message | Kind::Short => items(&[], sent),
        Kind::Piece => items(waits(settings), sent),
        Kind::Pack => bodies(sent),
        Kind::KeyText(_) => vec![Role::Text; sent.len()],
        Kind::Closing | Kind::Opening(_) => Vec::new(),
    }
}

/// Of bytes behind some that wait.
fn items(waiting: &[u8], sent: &[u8]) -> Vec<Role> {
    let bytes = [waiting, sent].concat();
    let mut roles = vec![Role::Other; bytes.len()];
    let mut at = 0;
    while at < bytes.len() {
        at += match bytes[at] {
            ESC => sequence(&bytes[at..], &mut roles[at..]),
            0..=31 => 1,
            _ => {
                roles[at] = Role::Printed;
                1
            }
        };
    }
    roles.split_off(waiting.len())
}

/// Of a sequence, as far as its bytes are there; how many it has.
fn sequence(bytes: &[u8], roles: &mut [Role]) -> usize {
    let Some(&second) = bytes.get(1) else { return 1 };
    roles[1] = Role::Second;
    if second == 37 && bytes.len() > 2 {
        roles[2] = Role::Of37;
    }
    length(second, bytes.get(2).copied()).unwrap_or(2)
}

/// Of a pack: four bytes of head, then a message, again and again; a cut record ends it.
fn bodies(pack: &[u8]) -> Vec<Role> {
    let mut roles = Vec::new();
    let mut rest = pack;
    while let [low, high, _, _, after @ ..] = rest {
        let body = usize::from(u16::from_le_bytes([*low, *high])).min(after.len());
        roles.extend([Role::Other; 4]);
        roles.extend(items(&[], &after[..body]));
        rest = &after[body..];
    }
    roles.resize(pack.len(), Role::Other);
    roles
}

/// "If no ESC 125 is read as a sequence": 123 in its place, which is as long.
pub fn keep_secret(roles: &[Role], sent: &mut [u8]) {
    for (byte, role) in sent.iter_mut().zip(roles) {
        if *role == Role::Second && *byte == 125 {
            *byte = 123;
        }
    }
}

/// Other values in the place of those that are read as printed; of a refused call only a
/// text has others.
pub fn exchange(random: &mut Random, roles: &[Role], served: bool, sent: &mut [u8]) {
    for (byte, role) in sent.iter_mut().zip(roles) {
        match role {
            Role::Printed if served => *byte = random.between(32, 255) as u8,
            Role::Of37 if served => *byte = random.byte(),
            Role::Text => *byte = random.byte(),
            _ => {}
        }
    }
}

/// The bytes of a call in both runs, with their roles.
pub struct Exchanged<'a> {
    pub roles: &'a [Role],
    pub sent: [&'a [u8]; 2],
}

impl Exchanged<'_> {
    /// Whether byte `at` has this role and differs.
    fn at(&self, at: usize, role: Role) -> bool {
        self.roles[at] == role && self.sent[0][at] != self.sent[1][at]
    }

    pub fn any(&self, role: Role) -> bool {
        (0..self.roles.len()).any(|at| self.at(at, role))
    }

    pub fn first(&self, role: Role) -> bool {
        !self.roles.is_empty() && self.at(0, role)
    }
}
