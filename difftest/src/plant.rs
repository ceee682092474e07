//! Wrong answers planted in the library's: the harness must report each of them.

use scion_proto::{Answer, Answered, WrittenPath};

use crate::tally::Call;

/// What is made wrong.
#[derive(Debug, Clone, Copy, PartialEq)]
pub enum Fault {
    /// One bit of this byte of the answer.
    AnswerByte(usize),
    /// One bit of a lent byte: counted from the start of its room, guards included.
    LentByte(usize),
    /// One bit of a lent byte, counted from the end of its room.
    LentByteFromEnd(usize),
    /// One bit of the byte behind a path that was written.
    BehindFront,
    /// A path written that lacks its last byte, by its bytes and by its length.
    FrontShort,
    /// A path written with a byte too many, by its bytes and by its length.
    FrontLong,
}

/// A fault in the answers to one call, of the accepted or of the refused ones.
#[derive(Debug, Clone, Copy)]
pub struct Plant {
    pub call: Call,
    pub accepted: bool,
    pub fault: Fault,
}

impl Plant {
    /// Whether it belongs in this answer.
    fn fits(&self, call: Call, answer: Answer) -> bool {
        self.call == call && self.accepted == (answer.number == 0)
    }
}

/// Makes an answer wrong where a plant says so.
#[inline]
pub fn answer<T: Answered>(plant: &Option<Plant>, call: Call, value: &mut T) {
    if let Some(plant) = plant {
        if let Fault::AnswerByte(at) = plant.fault {
            if plant.fits(call, value.answer()) && at < size_of::<T>() {
                flip(value, at);
            }
        }
    }
}

/// Makes a value wrong that has no answer in it, where a plant says so.
#[inline]
pub fn value<T>(plant: &Option<Plant>, call: Call, value: &mut T) {
    if let Some(Plant { call: at, accepted: true, fault: Fault::AnswerByte(byte) }) = plant {
        if *at == call && *byte < size_of::<T>() {
            flip(value, *byte);
        }
    }
}

/// Makes lent bytes wrong where a plant says so.
#[inline]
pub fn lent(plant: &Option<Plant>, call: Call, answer: Answer, room: &mut [u8]) {
    let Some(plant) = plant else { return };
    if !plant.fits(call, answer) {
        return;
    }
    let at = match plant.fault {
        Fault::LentByte(at) => at,
        Fault::LentByteFromEnd(at) => room.len().wrapping_sub(at + 1),
        _ => return,
    };
    if let Some(byte) = room.get_mut(at) {
        *byte ^= 1;
    }
}

/// Makes the end of a path that was written wrong where a plant says so, and where the destination has that byte.
#[inline]
pub fn front(plant: &Option<Plant>, call: Call, written: &mut WrittenPath, dst: &mut [u8]) {
    let Some(plant) = plant else { return };
    if !plant.fits(call, written.answer) {
        return;
    }
    let end = written.length;
    let (at, length) = match plant.fault {
        Fault::BehindFront => (end, end),
        Fault::FrontShort => (end.wrapping_sub(1), end.wrapping_sub(1)),
        Fault::FrontLong => (end, end + 1),
        _ => return,
    };
    if let Some(byte) = dst.get_mut(at) {
        *byte ^= 1;
        written.length = length;
    }
}

/// Flips the lowest bit of a byte of a plain value.
pub fn flip<T>(value: &mut T, at: usize) {
    let bytes = unsafe { std::slice::from_raw_parts_mut((value as *mut T).cast::<u8>(), size_of::<T>()) };
    bytes[at] ^= 1;
}
