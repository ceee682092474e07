//! Records alone: the times of those that calls hand back, and of those made by hand, which may hold any numbers.

use scion_proto::{
    Answer, Answered, Capture, Expiry, HopField, InfoField, Interface, InterfaceCount, Packet, Path, PathAnswer,
    PathRead, Segment, TimeLeft, Walk, WrittenPath,
};

use crate::check::Checker;
use crate::model::LARGEST_EXPIRY;
use crate::oracle::path::LATEST_NOW;
use crate::random::Random;

/// An answer that may have a path's record in it.
pub trait Recorded: Answered {
    /// The record.
    fn record(&self) -> Option<Path>;
}

macro_rules! recorded {
    ($($name:ident)*) => {
        $(impl Recorded for $name {
            fn record(&self) -> Option<Path> {
                Some(self.path)
            }
        })*
    };
}

recorded! {
    PathAnswer PathRead WrittenPath InfoField HopField Segment Expiry TimeLeft InterfaceCount Interface Walk Packet
}

impl Recorded for Capture {
    fn record(&self) -> Option<Path> {
        Some(self.packet.path)
    }
}

impl Recorded for Answer {
    fn record(&self) -> Option<Path> {
        None
    }
}

/// Times beside the borders: of now, of an expiry, and of 64 bits.
pub fn nows(expiry: u64) -> [u64; 11] {
    let (before, after) = (expiry.wrapping_sub(1), expiry.wrapping_add(1));
    [0, 1, before, expiry, after, LARGEST_EXPIRY, LATEST_NOW - 1, LATEST_NOW, LATEST_NOW + 1, 1 << 63, u64::MAX]
}

/// Expiries beside the borders: none at all, the least and the largest of a path, the bound of now, 63 and 64 bits.
const EXPIRIES: [u64; 22] = [
    0,
    1,
    337_499,
    337_500,
    338_500,
    338_501,
    u32::MAX as u64,
    1 << 32,
    LARGEST_EXPIRY - 1,
    LARGEST_EXPIRY,
    LARGEST_EXPIRY + 1,
    LATEST_NOW - 1,
    LATEST_NOW,
    LATEST_NOW + 1,
    i64::MAX as u64 - 1,
    i64::MAX as u64,
    1 << 63,
    (1 << 63) + 1,
    (1 << 63) + LATEST_NOW,
    u64::MAX - LATEST_NOW,
    u64::MAX - 1,
    u64::MAX,
];

/// Records whose other numbers no path has, some path has, or are all zero.
const OTHERS: [Path; 4] = [
    Path { current_info_field: 0, current_hop_field: 0, reserved: 0, segment_lengths: [0; 3], expiry: 0 },
    Path { current_info_field: 1, current_hop_field: 2, reserved: 42, segment_lengths: [2, 3, 4], expiry: 0 },
    Path { current_info_field: 3, current_hop_field: 63, reserved: 63, segment_lengths: [0, 63, 0], expiry: 0 },
    Path {
        current_info_field: 255,
        current_hop_field: 254,
        reserved: 253,
        segment_lengths: [252, 251, 250],
        expiry: 0,
    },
];

/// Both calls on records made by hand: each expiry at each time beside it.
pub fn borders(checker: &mut Checker) {
    for others in OTHERS {
        for expiry in EXPIRIES {
            let record = Path { expiry, ..others };
            checker.record_expiry(record);
            for now in nows(expiry).into_iter().chain(EXPIRIES) {
                checker.record_time_left(record, now);
            }
        }
    }
}

/// A number of any width: of 64 bits, below twice the bound of now, or one beside a border.
fn number(random: &mut Random) -> u64 {
    match random.below(4) {
        0 => random.next(),
        1 => random.next() >> random.below(64),
        2 => random.next() % (2 * LATEST_NOW),
        _ => random.pick(&EXPIRIES),
    }
}

/// Both calls on a record of any numbers, at any time and at one beside its expiry.
pub fn random_record(checker: &mut Checker, random: &mut Random) {
    let [info, hop, reserved, first, second, third, ..] = random.next().to_le_bytes();
    let record = Path {
        current_info_field: info,
        current_hop_field: hop,
        reserved,
        segment_lengths: [first, second, third],
        expiry: number(random),
    };
    checker.record_expiry(record);
    checker.record_time_left(record, number(random));
    checker.record_time_left(record, random.pick(&nows(record.expiry)));
}
