//! The library's types, laid out as in `scion_proto.h`, which the checks at the end hold them to.

use core::fmt;
use core::mem::{offset_of, size_of};

/// The type byte of an empty path.
pub const PATH_EMPTY: u8 = 0;
/// The type byte of a standard path; every other is an opaque one.
pub const PATH_STANDARD: u8 = 1;
/// The kind of an IPv4 host.
pub const HOST_IPV4: u8 = 0;
/// The kind of an IPv6 host.
pub const HOST_IPV6: u8 = 3;
/// The kind of a service.
pub const HOST_SERVICE: u8 = 4;

/// Info field flag: the packet goes in construction direction.
pub const INFO_CONSTRUCTION_DIRECTION: u8 = 0x01;
/// Info field flag: peering.
pub const INFO_PEERING: u8 = 0x02;
/// Hop field flag: router alert at the egress, as named in construction direction.
pub const HOP_EGRESS_ALERT: u8 = 0x01;
/// Hop field flag: router alert at the ingress, as named in construction direction.
pub const HOP_INGRESS_ALERT: u8 = 0x02;

/// The latest `now` that is taken, in ms since 1970.
pub const MAX_NOW: u64 = 9_000_000_000_000;
/// The latest expiry that a path can have, in ms since 1970.
pub const MAX_EXPIRY: u64 = 4_295_053_695_000;

/// An answer: 0, or a refusal's number with its value.
#[repr(C)]
#[derive(Debug, Clone, Copy, PartialEq, Eq, Default)]
pub struct Answer {
    pub number: u8,
    pub value: u8,
}

/// Why a call was refused: 1 to 15, with the version (2) or the factor (3) as its value.
#[derive(Debug, Clone, Copy, PartialEq, Eq)]
pub struct Refusal {
    pub number: u8,
    pub value: u8,
}

impl fmt::Display for Refusal {
    fn fmt(&self, f: &mut fmt::Formatter<'_>) -> fmt::Result {
        let words = match self.number {
            1 => "cut short",
            2 => "version",
            3 => "header length factor",
            4 => "segment lengths",
            5 => "info pointer",
            6 => "hop pointer",
            7 => "left-over path bytes",
            8 => "no such field or interface",
            9 => "destination of the wrong size",
            10 => "a number too wide for its field, or a time too late",
            11 => "payload too large",
            12 => "header too large",
            13 => "too many hop fields",
            14 => "peering not on both of two segments",
            15 => "at the last hop field",
            _ => "unknown",
        };
        write!(f, "{}, {words}", self.number)?;
        match self.number {
            2 | 3 => write!(f, " ({})", self.value),
            _ => Ok(()),
        }
    }
}

impl std::error::Error for Refusal {}

/// The record of a standard path as the call leaves it; all zero for other types. A packet has arrived when
/// `current_hop_field` is the last of all segments' hop fields.
///
/// `expiry` is when the path expires, in ms since 1970. An `expiry` of 0 is no expiry, and not a path that expired in
/// 1970: the record is not of a standard path. A record that was kept says nothing about bytes that were changed since
/// by other means.
#[repr(C)]
#[derive(Debug, Clone, Copy, PartialEq, Eq, Default)]
pub struct Path {
    pub current_info_field: u8,
    pub current_hop_field: u8,
    pub reserved: u8,
    pub segment_lengths: [u8; 3],
    pub expiry: u64,
}

/// A part of the caller's bytes.
#[repr(C)]
#[derive(Debug, Clone, Copy, PartialEq, Eq, Default)]
pub struct Part {
    pub start: usize,
    pub len: usize,
}

impl Part {
    /// The part of the bytes that it was found in.
    pub fn of<'a>(&self, bytes: &'a [u8]) -> &'a [u8] {
        &bytes[self.start..self.start + self.len]
    }
}

/// A host: a service's number and padding, or the first bytes of `bytes`, the others zero.
///
/// `padding` is the number in the two bytes that follow a service's number. It is 0 where any other host was read and in
/// new headers, and of any other host it is not written.
#[repr(C)]
#[derive(Debug, Clone, Copy, PartialEq, Eq, Default)]
pub struct Host {
    pub kind: u8,
    pub service: u16,
    pub bytes: [u8; 16],
    pub padding: u16,
}

/// The networks and the hosts at the two ends of a packet.
#[derive(Debug, Clone, Copy, PartialEq, Eq, Default)]
pub struct Ends {
    pub destination_ia: u64,
    pub destination: Host,
    pub source_ia: u64,
    pub source: Host,
}

/// An answer with the path's record.
#[repr(C)]
#[derive(Debug, Clone, Copy, PartialEq, Eq, Default)]
pub struct PathAnswer {
    pub answer: Answer,
    pub path: Path,
}

/// A path that was read.
#[repr(C)]
#[derive(Debug, Clone, Copy, PartialEq, Eq, Default)]
pub struct PathRead {
    pub answer: Answer,
    pub path: Path,
    pub length: usize,
}

/// A path that was written: the first `length` bytes of the destination, 0 for an empty path and on a refusal.
#[repr(C)]
#[derive(Debug, Clone, Copy, PartialEq, Eq, Default)]
pub struct WrittenPath {
    pub answer: Answer,
    pub path: Path,
    pub length: usize,
}

impl WrittenPath {
    /// The record and the front of the destination that the path was written to.
    pub fn of<'a>(&self, dst: &'a mut [u8]) -> Written<'a> {
        Written { path: self.path, bytes: &mut dst[..self.length] }
    }
}

/// The record of a path that was written, and its bytes: the front of the destination.
#[derive(Debug, PartialEq, Eq)]
pub struct Written<'a> {
    pub path: Path,
    pub bytes: &'a mut [u8],
}

/// An info field and where it starts in the path; `timestamp` in seconds since 1970.
#[repr(C)]
#[derive(Debug, Clone, Copy, PartialEq, Eq, Default)]
pub struct InfoField {
    pub answer: Answer,
    pub path: Path,
    pub start: usize,
    pub flags: u8,
    pub reserved: u8,
    pub accumulator: u16,
    pub timestamp: u32,
}

impl InfoField {
    /// Whether its hop fields stand in construction direction.
    pub fn is_constructed_dir(&self) -> bool {
        self.flags & 1 != 0
    }

    /// Whether its segment ends or begins at a peering link.
    pub fn is_peering(&self) -> bool {
        self.flags & 2 != 0
    }
}

/// A hop field and where it starts.
#[repr(C)]
#[derive(Debug, Clone, Copy, PartialEq, Eq, Default)]
pub struct HopField {
    pub answer: Answer,
    pub path: Path,
    pub start: usize,
    pub flags: u8,
    pub exp_time: u8,
    pub cons_ingress: u16,
    pub cons_egress: u16,
    pub mac: [u8; 6],
}

impl HopField {
    /// Whether its ingress alert flag is set.
    pub fn is_cons_ingress_router_alert(&self) -> bool {
        self.flags & 2 != 0
    }

    /// Whether its egress alert flag is set.
    pub fn is_cons_egress_router_alert(&self) -> bool {
        self.flags & 1 != 0
    }
}

/// Where a segment's fields lie.
#[repr(C)]
#[derive(Debug, Clone, Copy, PartialEq, Eq, Default)]
pub struct Segment {
    pub answer: Answer,
    pub path: Path,
    pub info_field: Part,
    pub hop_fields: Part,
}

/// An expiry in ms since 1970.
#[repr(C)]
#[derive(Debug, Clone, Copy, PartialEq, Eq, Default)]
pub struct Expiry {
    pub answer: Answer,
    pub path: Path,
    pub ms: u64,
}

/// Expiry less now, in ms; below zero once the path has expired.
#[repr(C)]
#[derive(Debug, Clone, Copy, PartialEq, Eq, Default)]
pub struct TimeLeft {
    pub answer: Answer,
    pub path: Path,
    pub ms: i64,
}

/// How many interfaces a path has.
#[repr(C)]
#[derive(Debug, Clone, Copy, PartialEq, Eq, Default)]
pub struct InterfaceCount {
    pub answer: Answer,
    pub path: Path,
    pub count: usize,
}

/// An interface, 0 for none, and the hop field that it belongs to.
#[repr(C)]
#[derive(Debug, Clone, Copy, PartialEq, Eq, Default)]
pub struct Interface {
    pub answer: Answer,
    pub path: Path,
    pub hop_field: usize,
    pub id: u16,
}

/// How many moves a walk made, and whether it stands at the last hop field: 1 or 0.
#[repr(C)]
#[derive(Debug, Clone, Copy, PartialEq, Eq, Default)]
pub struct Walk {
    pub answer: Answer,
    pub path: Path,
    pub moves: usize,
    pub arrived: u8,
}

/// A packet that was split.
#[repr(C)]
#[derive(Debug, Clone, Copy, PartialEq, Eq, Default)]
pub struct Packet {
    pub answer: Answer,
    pub path: Path,
    pub version: u8,
    pub traffic_class: u8,
    pub next_header: u8,
    pub header_length_factor: u8,
    pub path_type: u8,
    pub payload_length: u16,
    pub reserved: u16,
    pub flow_id: u32,
    pub destination_ia: u64,
    pub source_ia: u64,
    pub destination: Host,
    pub source: Host,
    pub path_part: Part,
    pub payload_part: Part,
}

impl Packet {
    /// The headers that were read: with the packet's path part, into as many bytes as stand before its payload part, they
    /// are written as they arrived.
    pub fn headers(&self) -> Headers {
        Headers {
            version: self.version,
            traffic_class: self.traffic_class,
            next_header: self.next_header,
            path_type: self.path_type,
            reserved: self.reserved,
            flow_id: self.flow_id,
            header_length_factor: self.header_length_factor.into(),
            payload_length: self.payload_length.into(),
            destination_ia: self.destination_ia,
            source_ia: self.source_ia,
            destination: self.destination,
            source: self.source,
        }
    }
}

/// A captured packet that was split, and whether it is short, which is to have fewer bytes than 4 × its factor: 1 or 0, and
/// 0 on a refusal.
#[repr(C)]
#[derive(Debug, Clone, Copy, PartialEq, Eq, Default)]
pub struct Capture {
    pub packet: Packet,
    pub is_short: u8,
}

/// Headers to be written.
#[repr(C)]
#[derive(Debug, Clone, Copy, PartialEq, Eq, Default)]
pub struct Headers {
    pub version: u8,
    pub traffic_class: u8,
    pub next_header: u8,
    pub path_type: u8,
    pub reserved: u16,
    pub flow_id: u32,
    pub header_length_factor: usize,
    pub payload_length: usize,
    pub destination_ia: u64,
    pub source_ia: u64,
    pub destination: Host,
    pub source: Host,
}

/// A type that begins with an answer.
pub trait Answered: Sized {
    /// The answer.
    fn answer(&self) -> Answer;

    /// The value, or why there is none.
    fn result(self) -> Result<Self, Refusal> {
        match self.answer() {
            Answer { number: 0, .. } => Ok(self),
            Answer { number, value } => Err(Refusal { number, value }),
        }
    }
}

impl Answered for Answer {
    fn answer(&self) -> Answer {
        *self
    }
}

macro_rules! answered {
    ($($name:ident)*) => {
        $(impl Answered for $name {
            fn answer(&self) -> Answer {
                self.answer
            }
        })*
    };
}

answered! {
    PathAnswer PathRead WrittenPath InfoField HopField Segment Expiry TimeLeft InterfaceCount Interface Walk Packet
}

impl Answered for Capture {
    fn answer(&self) -> Answer {
        self.packet.answer
    }
}

/// Checks a type's size and where its fields start, when the crate is built.
macro_rules! laid_out {
    ($name:ident: $size:literal { $($field:ident @ $offset:literal)* }) => {
        const _: () = {
            assert!(size_of::<$name>() == $size);
            $(assert!(offset_of!($name, $field) == $offset);)*
        };
    };
}

laid_out!(Answer: 2 { number @ 0 value @ 1 });
laid_out!(Path: 16 { current_info_field @ 0 current_hop_field @ 1 reserved @ 2 segment_lengths @ 3 expiry @ 8 });
laid_out!(Part: 16 { start @ 0 len @ 8 });
laid_out!(Host: 22 { kind @ 0 service @ 2 bytes @ 4 padding @ 20 });
laid_out!(PathAnswer: 24 { answer @ 0 path @ 8 });
laid_out!(PathRead: 32 { answer @ 0 path @ 8 length @ 24 });
laid_out!(WrittenPath: 32 { answer @ 0 path @ 8 length @ 24 });
laid_out!(InfoField: 40 {
    answer @ 0 path @ 8 start @ 24 flags @ 32 reserved @ 33 accumulator @ 34 timestamp @ 36
});
laid_out!(HopField: 48 {
    answer @ 0 path @ 8 start @ 24 flags @ 32 exp_time @ 33 cons_ingress @ 34 cons_egress @ 36 mac @ 38
});
laid_out!(Segment: 56 { answer @ 0 path @ 8 info_field @ 24 hop_fields @ 40 });
laid_out!(Expiry: 32 { answer @ 0 path @ 8 ms @ 24 });
laid_out!(TimeLeft: 32 { answer @ 0 path @ 8 ms @ 24 });
laid_out!(InterfaceCount: 32 { answer @ 0 path @ 8 count @ 24 });
laid_out!(Interface: 40 { answer @ 0 path @ 8 hop_field @ 24 id @ 32 });
laid_out!(Walk: 40 { answer @ 0 path @ 8 moves @ 24 arrived @ 32 });
laid_out!(Packet: 136 {
    answer @ 0 path @ 8 version @ 24 traffic_class @ 25 next_header @ 26 header_length_factor @ 27 path_type @ 28
    payload_length @ 30 reserved @ 32 flow_id @ 36 destination_ia @ 40 source_ia @ 48 destination @ 56 source @ 78
    path_part @ 104 payload_part @ 120
});
laid_out!(Capture: 144 { packet @ 0 is_short @ 136 });
laid_out!(Headers: 96 {
    version @ 0 traffic_class @ 1 next_header @ 2 path_type @ 3 reserved @ 4 flow_id @ 8 header_length_factor @ 16
    payload_length @ 24 destination_ia @ 32 source_ia @ 40 destination @ 48 source @ 70
});
