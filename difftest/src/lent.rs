//! Bytes lent to the library, with guards on both sides that must stay, beside what all of it is to be afterwards.

/// How many guard bytes stand on each side.
pub const GUARD: usize = 16;
/// What they hold.
const GUARD_BYTE: u8 = 0xa7;

/// A room that is lent, and a second one that holds what is expected of it.
#[derive(Default)]
pub struct Lent {
    room: Vec<u8>,
    expected: Vec<u8>,
}

impl Lent {
    /// Puts bytes into both rooms.
    pub fn set(&mut self, bytes: &[u8]) {
        for room in [&mut self.room, &mut self.expected] {
            room.clear();
            room.extend_from_slice(&[GUARD_BYTE; GUARD]);
            room.extend_from_slice(bytes);
            room.extend_from_slice(&[GUARD_BYTE; GUARD]);
        }
    }

    /// Puts so many equal bytes into both rooms.
    pub fn set_filled(&mut self, byte: u8, length: usize) {
        for room in [&mut self.room, &mut self.expected] {
            room.clear();
            room.extend_from_slice(&[GUARD_BYTE; GUARD]);
            room.resize(GUARD + length, byte);
            room.extend_from_slice(&[GUARD_BYTE; GUARD]);
        }
    }

    /// The bytes that the library sees.
    pub fn bytes(&self) -> &[u8] {
        &self.room[GUARD..self.room.len() - GUARD]
    }

    /// The bytes that the library may change.
    pub fn bytes_mut(&mut self) -> &mut [u8] {
        let end = self.room.len() - GUARD;
        &mut self.room[GUARD..end]
    }

    /// The bytes that are expected afterwards.
    pub fn expected_mut(&mut self) -> &mut [u8] {
        let end = self.expected.len() - GUARD;
        &mut self.expected[GUARD..end]
    }

    /// The whole room, guards included.
    pub fn room(&self) -> &[u8] {
        &self.room
    }

    /// The whole room, to plant a fault in.
    pub fn room_mut(&mut self) -> &mut [u8] {
        &mut self.room
    }

    /// What the whole room is to be.
    pub fn expected(&self) -> &[u8] {
        &self.expected
    }
}
