//! The Rust's answers, turned into document 01's numbers, values and bytes, in the shapes of `scion_proto.h`.

pub mod headers;
pub mod packet;
pub mod path;
pub mod write;

use std::cell::Cell;
use std::ops::Deref;
use std::panic::{AssertUnwindSafe, catch_unwind, set_hook, take_hook};

use bytes::Bytes;
use scion_proto::{
    Answer, Capture, Expiry, HopField, InfoField, Interface, InterfaceCount, Packet, Path, PathAnswer, PathRead,
    Segment, TimeLeft, Walk, WrittenPath,
};
use scion_rs::packet::DecodeError;
use scion_rs::path::standard::PathMetaHeader;
use scion_rs::path::{DataplanePath, DataplanePathErrorKind, StandardPath};

/// Accepted.
pub const ACCEPTED: Answer = Answer { number: 0, value: 0 };

/// A refusal without a value.
pub const fn refusal(number: u8) -> Answer {
    Answer { number, value: 0 }
}

/// Document 01's number and value of the Rust's error.
pub fn number_of(error: DecodeError) -> Answer {
    match error {
        DecodeError::PacketEmptyOrTruncated => refusal(1),
        DecodeError::UnsupportedVersion(version) => Answer { number: 2, value: version.get() },
        DecodeError::InvalidHeaderLength(factor) => Answer { number: 3, value: factor },
        DecodeError::InvalidPath(DataplanePathErrorKind::InvalidSegmentLengths) => refusal(4),
        DecodeError::InvalidPath(DataplanePathErrorKind::InfoFieldOutOfRange) => refusal(5),
        DecodeError::InvalidPath(DataplanePathErrorKind::HopFieldOutOfRange) => refusal(6),
        DecodeError::InconsistentPathLength => refusal(7),
        other => panic!("an error that document 01 has no number for: {other:?}"),
    }
}

/// An answer of a shape: refused, with zero in every other field.
pub trait Refused {
    fn refused(answer: Answer) -> Self;
}

macro_rules! refused {
    ($($name:ident)*) => {
        $(impl Refused for $name {
            fn refused(answer: Answer) -> Self {
                Self { answer, ..Self::default() }
            }
        })*
    };
}

refused! {
    PathAnswer PathRead WrittenPath InfoField HopField Segment Expiry TimeLeft InterfaceCount Interface Walk Packet
}

impl Refused for Capture {
    fn refused(answer: Answer) -> Self {
        Self { packet: Packet::refused(answer), is_short: 0 }
    }
}

/// When the Rust's path expires by its own account, in ms since 1970.
pub(crate) fn expiry_of<T: Deref<Target = [u8]>>(path: &StandardPath<T>) -> u64 {
    u64::try_from(path.expiry_time().timestamp_millis()).expect("after 1970")
}

/// The record of the Rust's meta header, with an expiry.
pub fn record_with(meta: &PathMetaHeader, expiry: u64) -> Path {
    Path {
        current_info_field: meta.current_info_field.get(),
        current_hop_field: meta.current_hop_field.get(),
        reserved: meta.reserved.get(),
        segment_lengths: meta.segment_lengths.map(|length| length.get()),
        expiry,
    }
}

/// The record of the Rust's path: its meta header, and the expiry that it gives itself; zero where it is not a standard one.
pub fn record<T: Deref<Target = [u8]>>(path: &DataplanePath<T>) -> Path {
    match path {
        DataplanePath::Standard(path) => record_with(path.meta_header(), expiry_of(path)),
        _ => Path::default(),
    }
}

/// The Rust's byte string over borrowed bytes, without a copy.
///
/// It must be dropped before the bytes change or go: callers in this module keep it beside their borrow.
pub(crate) fn lend(bytes: &[u8]) -> Bytes {
    // The Rust wants bytes that live for ever; these are only looked at while the borrow lasts.
    Bytes::from_static(unsafe { std::mem::transmute::<&[u8], &'static [u8]>(bytes) })
}

/// How far `part` starts after `whole`, whose part it is.
pub(crate) fn offset(whole: &[u8], part: &[u8]) -> usize {
    part.as_ptr() as usize - whole.as_ptr() as usize
}

thread_local! {
    /// Whether a panic is what is being looked for.
    static EXPECTING: Cell<bool> = const { Cell::new(false) };
}

/// Keeps panics that are looked for from being printed; others still are.
pub fn quiet_expected_panics() {
    let shown = take_hook();
    set_hook(Box::new(move |info| {
        if !EXPECTING.get() {
            shown(info);
        }
    }));
}

/// Whether a call of the Rust panics.
pub(crate) fn panics(call: impl FnOnce()) -> bool {
    EXPECTING.set(true);
    let caught = catch_unwind(AssertUnwindSafe(call));
    EXPECTING.set(false);
    caught.is_err()
}
