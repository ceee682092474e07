//! Document 01's rules for what the Rust lacks or leaves open, written from its text alone: moves, walks,
//! accumulators by a path alone, when a path expires that a move left, the times of a record (request 2026-01), the
//! interfaces of a peering path (request 2026-03), the padding of a service (request 2026-05), packets with fewer bytes than
//! their headers take (request 2026-06), what an end holds after an arrival (request 2026-08), which packets are accepted and
//! what is filed of them (request 2026-14), and the writing of headers that the Rust can't build.

use std::cell::Cell;

use scion_proto::{
    Answer, Capture, Ends, Headers, Host, Interface, InterfaceCount, Packet, Path, PathAnswer, TimeLeft, Walk,
};

use crate::oracle::packet::read_packet;
use crate::oracle::path::{LATEST_NOW, Oracle};
use crate::oracle::{ACCEPTED, Refused, refusal};

/// A plausible wrong rule of moving, of interfaces, of times, of arrivals, of padding, of short packets, of acceptance or of
/// filing, put in the right one's place to see that the run's inputs tell them apart.
#[derive(Debug, Clone, Copy, PartialEq)]
pub enum Twist {
    None,
    OwnerIsAlwaysTheFirst,
    OwnerIsAlwaysTheNext,
    PeeringSparesEveryOwner,
    PeeringSparesNoOwner,
    PeeringSparesOnlyBeforeTheBorder,
    PeeringSparesOnlyAfterTheBorder,
    CrossingChangesTheAccumulator,
    WalkChangesAtItsFirstMoveOnly,
    WalkStopsOneEarly,
    SixtyFourAreTooMany,
    SixtyFiveAreNotTooMany,
    PeeringOnOneIsFine,
    PeeringOnBothIsNotFine,
    PeeringLinkIsNotCounted,
    OuterInterfacesAreCounted,
    PeeringOnOneIsALink,
    PeeringOnThreeIsALink,
    HopFieldIsRoundedDown,
    PeeringLinkIsTurned,
    PeeringLinkHasOneDirection,
    LargestIndexWrapsAround,
    ExpiryOfTheFirstHopFieldOnly,
    ExpiryOfTheFirstSegmentOnly,
    ExpiryOfTheLastSegmentOnly,
    ExpiryByTheFirstTimestamp,
    ExpiryOfTheCurrentSegment,
    ExpiryOfTheHopFieldsAhead,
    ExpiryIsTheGreatest,
    LargestExpiryIsTooWide,
    OneMoreThanTheLargestExpiryIsNot,
    AnyExpiryIsTaken,
    LatestNowIsTooLate,
    AnyNowIsTaken,
    NoExpiryIsRefused,
    NothingIsLeftOnceItHasExpired,
    EndHoldsTheWholeDestination,
    PaddingIsDropped,
    PaddingOfTheOtherHostIsRead,
    PaddingOfAnyHostIsRead,
    PaddingIsReadTurned,
    PaddingIsWrittenAsZero,
    PaddingOfTheOtherHostIsWritten,
    PaddingOfAnyHostIsWritten,
    PaddingIsWrittenTurned,
    NewHeadersKeepThePadding,
    ShortIsTestedBeforeTheVersion,
    ShortIsTestedBeforeTheFactor,
    ShortIsTestedLast,
    JustEnoughIsCut,
    PayloadIsCountedAsHeader,
    CommonHeaderIsNotCounted,
    JustEnoughIsShort,
    ShortIsToldOnARefusal,
    ShortIsNeverTold,
    ShortCaptureIsRefused,
    AnyVersionIsAcceptable,
    FactorEightCountsAsNine,
    FactorNineIsNotAcceptable,
    ShortHeaderIsAcceptable,
    EmptyPathMayLeaveBytes,
    StandardPathMayLeaveBytes,
    StandardPathIsOpaque,
    OpaquePathHasBytes,
    LengthAfterZeroIsAcceptable,
    InfoPointerAtTheCountIsAcceptable,
    HopPointerAtTheCountIsAcceptable,
    HopPointerInAnySegmentIsAcceptable,
    EveryHostHasFourBytes,
    SourceIsAsLongAsTheDestination,
    PayloadMayLackAByte,
    PayloadEndsThePacket,
    FiledWithoutPadding,
    FiledWithoutReserved,
    FiledWithoutKinds,
    FiledWithoutPath,
    FiledWithTheMetaHeaderAlone,
    FiledWithoutPayload,
    FiledWithAllThatFollows,
}

/// All the wrong rules.
pub const TWISTS: [Twist; 78] = [
    Twist::OwnerIsAlwaysTheFirst,
    Twist::OwnerIsAlwaysTheNext,
    Twist::PeeringSparesEveryOwner,
    Twist::PeeringSparesNoOwner,
    Twist::PeeringSparesOnlyBeforeTheBorder,
    Twist::PeeringSparesOnlyAfterTheBorder,
    Twist::CrossingChangesTheAccumulator,
    Twist::WalkChangesAtItsFirstMoveOnly,
    Twist::WalkStopsOneEarly,
    Twist::SixtyFourAreTooMany,
    Twist::SixtyFiveAreNotTooMany,
    Twist::PeeringOnOneIsFine,
    Twist::PeeringOnBothIsNotFine,
    Twist::PeeringLinkIsNotCounted,
    Twist::OuterInterfacesAreCounted,
    Twist::PeeringOnOneIsALink,
    Twist::PeeringOnThreeIsALink,
    Twist::HopFieldIsRoundedDown,
    Twist::PeeringLinkIsTurned,
    Twist::PeeringLinkHasOneDirection,
    Twist::LargestIndexWrapsAround,
    Twist::ExpiryOfTheFirstHopFieldOnly,
    Twist::ExpiryOfTheFirstSegmentOnly,
    Twist::ExpiryOfTheLastSegmentOnly,
    Twist::ExpiryByTheFirstTimestamp,
    Twist::ExpiryOfTheCurrentSegment,
    Twist::ExpiryOfTheHopFieldsAhead,
    Twist::ExpiryIsTheGreatest,
    Twist::LargestExpiryIsTooWide,
    Twist::OneMoreThanTheLargestExpiryIsNot,
    Twist::AnyExpiryIsTaken,
    Twist::LatestNowIsTooLate,
    Twist::AnyNowIsTaken,
    Twist::NoExpiryIsRefused,
    Twist::NothingIsLeftOnceItHasExpired,
    Twist::EndHoldsTheWholeDestination,
    Twist::PaddingIsDropped,
    Twist::PaddingOfTheOtherHostIsRead,
    Twist::PaddingOfAnyHostIsRead,
    Twist::PaddingIsReadTurned,
    Twist::PaddingIsWrittenAsZero,
    Twist::PaddingOfTheOtherHostIsWritten,
    Twist::PaddingOfAnyHostIsWritten,
    Twist::PaddingIsWrittenTurned,
    Twist::NewHeadersKeepThePadding,
    Twist::ShortIsTestedBeforeTheVersion,
    Twist::ShortIsTestedBeforeTheFactor,
    Twist::ShortIsTestedLast,
    Twist::JustEnoughIsCut,
    Twist::PayloadIsCountedAsHeader,
    Twist::CommonHeaderIsNotCounted,
    Twist::JustEnoughIsShort,
    Twist::ShortIsToldOnARefusal,
    Twist::ShortIsNeverTold,
    Twist::ShortCaptureIsRefused,
    Twist::AnyVersionIsAcceptable,
    Twist::FactorEightCountsAsNine,
    Twist::FactorNineIsNotAcceptable,
    Twist::ShortHeaderIsAcceptable,
    Twist::EmptyPathMayLeaveBytes,
    Twist::StandardPathMayLeaveBytes,
    Twist::StandardPathIsOpaque,
    Twist::OpaquePathHasBytes,
    Twist::LengthAfterZeroIsAcceptable,
    Twist::InfoPointerAtTheCountIsAcceptable,
    Twist::HopPointerAtTheCountIsAcceptable,
    Twist::HopPointerInAnySegmentIsAcceptable,
    Twist::EveryHostHasFourBytes,
    Twist::SourceIsAsLongAsTheDestination,
    Twist::PayloadMayLackAByte,
    Twist::PayloadEndsThePacket,
    Twist::FiledWithoutPadding,
    Twist::FiledWithoutReserved,
    Twist::FiledWithoutKinds,
    Twist::FiledWithoutPath,
    Twist::FiledWithTheMetaHeaderAlone,
    Twist::FiledWithoutPayload,
    Twist::FiledWithAllThatFollows,
];

thread_local! {
    /// The wrong rule in force; none but in the self-check.
    static TWIST: Cell<Twist> = const { Cell::new(Twist::None) };
}

/// Puts a wrong rule in force, or none.
pub fn twist(twist: Twist) {
    TWIST.set(twist);
}

/// Whether a wrong rule is in force.
fn has(twist: Twist) -> bool {
    TWIST.get() == twist
}

/// The largest expiry of document 01: the latest timestamp, and the largest expiry byte.
pub const LARGEST_EXPIRY: u64 = 4_295_053_695_000;

/// The lengths and pointers of a path.
#[derive(Clone, Copy)]
pub struct Shape {
    pub lengths: [usize; 3],
    pub info_fields: usize,
    pub hop_fields: usize,
    pub info_pointer: usize,
    pub hop_pointer: usize,
}

impl Shape {
    /// The shape of lengths and pointers.
    pub fn new(lengths: [usize; 3], info_pointer: usize, hop_pointer: usize) -> Self {
        Self {
            lengths,
            info_fields: lengths.iter().take_while(|length| **length > 0).count(),
            hop_fields: lengths.iter().sum(),
            info_pointer,
            hop_pointer,
        }
    }

    /// The shape in a path's record.
    pub fn of(record: &Path) -> Self {
        let lengths = record.segment_lengths.map(usize::from);
        Self::new(lengths, record.current_info_field.into(), record.current_hop_field.into())
    }

    /// What the four bytes of a meta header say of a shape, good or not.
    fn of_meta(bytes: [u8; 4]) -> Self {
        let word = u32::from_be_bytes(bytes);
        let six_bits = |at: u32| (word >> at) as usize & 63;
        Self::new([six_bits(12), six_bits(6), six_bits(0)], (word >> 30) as usize, six_bits(24))
    }

    /// The segment that a hop field stands in.
    pub fn segment_of(&self, hop_field: usize) -> usize {
        let mut end = 0;
        for (segment, length) in self.lengths.iter().enumerate() {
            end += length;
            if hop_field < end {
                return segment;
            }
        }
        panic!("no such hop field")
    }

    /// Where info field `k` starts.
    pub fn info_at(&self, k: usize) -> usize {
        4 + 8 * k
    }

    /// Where hop field `h` starts.
    pub fn hop_at(&self, h: usize) -> usize {
        4 + 8 * self.info_fields + 12 * h
    }

    /// How many bytes the path takes.
    pub fn bytes(&self) -> usize {
        self.hop_at(self.hop_fields)
    }
}

/// Whether direction is set in segment `k`.
pub fn is_along(bytes: &[u8], shape: &Shape, k: usize) -> bool {
    bytes[shape.info_at(k)] & 1 == 1
}

/// Whether peering is set in segment `k`.
fn has_peering(bytes: &[u8], shape: &Shape, k: usize) -> bool {
    bytes[shape.info_at(k)] & 2 == 2
}

/// How many segments have peering set.
fn peering_count(bytes: &[u8], shape: &Shape) -> usize {
    (0..shape.info_fields).filter(|k| has_peering(bytes, shape, *k)).count()
}

/// Whether a path is a peering path: it has two segments, and peering is set in both.
fn is_peering_path(bytes: &[u8], shape: &Shape) -> bool {
    shape.info_fields == 2 && peering_count(bytes, shape) == 2
}

/// The accumulator of segment `k`.
pub fn accumulator(bytes: &[u8], shape: &Shape, k: usize) -> u16 {
    let at = shape.info_at(k) + 2;
    u16::from_be_bytes([bytes[at], bytes[at + 1]])
}

/// The first two code bytes of hop field `h`.
fn code(bytes: &[u8], shape: &Shape, h: usize) -> u16 {
    let at = shape.hop_at(h) + 6;
    u16::from_be_bytes([bytes[at], bytes[at + 1]])
}

/// 13 or 14, where a path is refused to moves.
fn refused_to_moves(bytes: &[u8], shape: &Shape) -> Option<Answer> {
    let most = 64 + usize::from(has(Twist::SixtyFiveAreNotTooMany)) - usize::from(has(Twist::SixtyFourAreTooMany));
    if shape.hop_fields > most {
        return Some(refusal(13));
    }
    let with = peering_count(bytes, shape);
    let is_both = is_peering_path(bytes, shape) && !has(Twist::PeeringOnBothIsNotFine);
    let is_fine = with == 0 || is_both || (with == 1 && has(Twist::PeeringOnOneIsFine));
    (!is_fine).then_some(refusal(14))
}

/// The change of segment `k`'s accumulator by the move from `h` to `h + 1`, both in that segment.
fn change(bytes: &[u8], shape: &Shape, k: usize, h: usize) -> u16 {
    let is_along = is_along(bytes, shape, k) && !has(Twist::OwnerIsAlwaysTheNext) || has(Twist::OwnerIsAlwaysTheFirst);
    let owner = if is_along { h } else { h + 1 };
    if has_peering(bytes, shape, k) && is_spared(shape, owner) {
        return 0;
    }
    code(bytes, shape, owner)
}

/// Whether an owner is spared where peering is set: the last of the first segment, the first of the second.
fn is_spared(shape: &Shape, owner: usize) -> bool {
    let first = shape.lengths[0];
    match TWIST.get() {
        Twist::PeeringSparesEveryOwner => true,
        Twist::PeeringSparesNoOwner => false,
        Twist::PeeringSparesOnlyBeforeTheBorder => owner + 1 == first,
        Twist::PeeringSparesOnlyAfterTheBorder => owner == first,
        _ => owner == first || owner + 1 == first,
    }
}

/// One move of a path that admits it: the pointers and perhaps an accumulator.
fn step(bytes: &mut [u8], shape: &mut Shape) {
    let h = shape.hop_pointer;
    let k = shape.info_pointer;
    let next = shape.segment_of(h + 1);
    if next == k || has(Twist::CrossingChangesTheAccumulator) {
        let new = accumulator(bytes, shape, k) ^ change(bytes, shape, k, h);
        let at = shape.info_at(k) + 2;
        bytes[at..at + 2].copy_from_slice(&new.to_be_bytes());
    }
    shape.hop_pointer = h + 1;
    shape.info_pointer = next;
    bytes[0] = (next as u8) << 6 | (h + 1) as u8;
}

/// The shape of a standard path that moves are not refused on, else the first refusal.
fn movable(oracle: &Oracle, bytes: &[u8]) -> Result<Shape, Answer> {
    oracle.standard()?;
    let shape = Shape::of(&oracle.record());
    match refused_to_moves(bytes, &shape) {
        Some(answer) => Err(answer),
        None => Ok(shape),
    }
}

/// The record of the bytes that moves have left, with the pointers of a shape.
fn record_at(oracle: &Oracle, bytes: &[u8], shape: &Shape) -> Path {
    Path {
        current_info_field: shape.info_pointer as u8,
        current_hop_field: shape.hop_pointer as u8,
        expiry: expiry(bytes, shape),
        ..oracle.record()
    }
}

/// A single move; `bytes` are the ones that `oracle` read, in a copy that may change.
pub fn single_move(oracle: &Oracle, bytes: &mut [u8]) -> PathAnswer {
    let mut shape = match movable(oracle, bytes) {
        Ok(shape) => shape,
        Err(answer) => return PathAnswer::refused(answer),
    };
    if shape.hop_pointer + 1 == shape.hop_fields {
        return PathAnswer::refused(refusal(15));
    }
    step(bytes, &mut shape);
    PathAnswer { answer: ACCEPTED, path: record_at(oracle, bytes, &shape) }
}

/// A walk: moves until the last hop field or the limit.
pub fn walk(oracle: &Oracle, bytes: &mut [u8], limit: usize) -> Walk {
    let mut shape = match movable(oracle, bytes) {
        Ok(shape) => shape,
        Err(answer) => return Walk::refused(answer),
    };
    let mut moves = 0;
    let end = shape.hop_fields - usize::from(has(Twist::WalkStopsOneEarly));
    while moves < limit && shape.hop_pointer + 1 < end {
        let before = accumulator(bytes, &shape, shape.info_pointer).to_be_bytes();
        let at = shape.info_at(shape.info_pointer) + 2;
        step(bytes, &mut shape);
        moves += 1;
        if moves > 1 && has(Twist::WalkChangesAtItsFirstMoveOnly) {
            bytes[at..at + 2].copy_from_slice(&before);
        }
    }
    let arrived = u8::from(shape.hop_pointer + 1 == shape.hop_fields);
    Walk { answer: ACCEPTED, path: record_at(oracle, bytes, &shape), moves, arrived }
}

/// What an end holds after an arrival: of the destination that it lent, the front of so many bytes alone.
pub fn held(dst: &[u8], length: usize) -> Vec<u8> {
    let end = if has(Twist::EndHoldsTheWholeDestination) { dst.len() } else { length.min(dst.len()) };
    dst[..end].to_vec()
}

/// Each hop field's accumulator by a path alone, without a move in it.
pub fn accumulators(bytes: &[u8], shape: &Shape) -> Vec<u16> {
    let mut all = Vec::new();
    let mut first = 0;
    for k in 0..shape.info_fields {
        for i in first..first + shape.lengths[k] {
            let changes = (first..i).map(|h| change(bytes, shape, k, h));
            all.push(changes.fold(accumulator(bytes, shape, k), |sum, change| sum ^ change));
        }
        first += shape.lengths[k];
    }
    all
}

/// The entry and the exit interface of hop field `h`, by the direction of the segment it stands in.
pub fn entry_and_exit(bytes: &[u8], shape: &Shape, h: usize) -> (u16, u16) {
    entry_and_exit_by(bytes, shape, h, shape.segment_of(h))
}

/// The entry and the exit interface of hop field `h`, by the direction of segment `k`.
fn entry_and_exit_by(bytes: &[u8], shape: &Shape, h: usize, k: usize) -> (u16, u16) {
    let at = shape.hop_at(h);
    let ingress = u16::from_be_bytes([bytes[at + 2], bytes[at + 3]]);
    let egress = u16::from_be_bytes([bytes[at + 4], bytes[at + 5]]);
    if is_along(bytes, shape, k) { (ingress, egress) } else { (egress, ingress) }
}

/// The shape of a path whose interfaces are request 2026-03's: a peering path, and no other.
fn peering_shape(oracle: &Oracle, bytes: &[u8]) -> Option<Shape> {
    oracle.standard().ok()?;
    let shape = Shape::of(&oracle.record());
    let is_peering = match TWIST.get() {
        Twist::PeeringOnOneIsALink => shape.info_fields == 2 && peering_count(bytes, &shape) > 0,
        Twist::PeeringOnThreeIsALink => shape.info_fields > 1 && peering_count(bytes, &shape) == shape.info_fields,
        _ => is_peering_path(bytes, &shape),
    };
    is_peering.then_some(shape)
}

/// How many ends the links of a peering path have, one link from each hop field to the next: 2·(N − 1).
fn link_ends(shape: &Shape) -> usize {
    match TWIST.get() {
        Twist::PeeringLinkIsNotCounted => 2 * (shape.hop_fields - shape.info_fields),
        Twist::OuterInterfacesAreCounted => 2 * shape.hop_fields,
        _ => 2 * (shape.hop_fields - 1),
    }
}

/// The hop field of interface `index`, which is index / 2 rounded up, and its exit for an even index, else its entry.
fn link_end(bytes: &[u8], shape: &Shape, index: usize) -> (usize, u16) {
    let is_turned = has(Twist::PeeringLinkIsTurned) && index / 2 + 1 == shape.lengths[0];
    let index = if is_turned { index ^ 1 } else { index };
    let hop_field = match TWIST.get() {
        Twist::HopFieldIsRoundedDown => index / 2,
        Twist::OuterInterfacesAreCounted => index.div_ceil(2).min(shape.hop_fields - 1),
        Twist::LargestIndexWrapsAround => index.wrapping_add(1) / 2,
        _ => index.div_ceil(2),
    };
    let directed = if has(Twist::PeeringLinkHasOneDirection) { index / 2 } else { hop_field };
    let (entry, exit) = entry_and_exit_by(bytes, shape, hop_field, shape.segment_of(directed));
    (hop_field, if index % 2 == 0 { exit } else { entry })
}

/// How many interfaces a peering path has; nothing for other paths, whose interfaces are the Rust's.
pub fn peering_interfaces_count(oracle: &Oracle, bytes: &[u8]) -> Option<InterfaceCount> {
    let shape = peering_shape(oracle, bytes)?;
    Some(InterfaceCount { answer: ACCEPTED, path: oracle.record(), count: link_ends(&shape) })
}

/// Interface `index` of a peering path, 8 from the count on; nothing for other paths, whose interfaces are the Rust's.
pub fn peering_interface(oracle: &Oracle, bytes: &[u8], index: usize) -> Option<Interface> {
    let shape = peering_shape(oracle, bytes)?;
    let count = link_ends(&shape);
    let is_there = if has(Twist::LargestIndexWrapsAround) { index.wrapping_add(1) <= count } else { index < count };
    if !is_there {
        return Some(Interface::refused(refusal(8)));
    }
    let (hop_field, id) = link_end(bytes, &shape, index);
    Some(Interface { answer: ACCEPTED, path: oracle.record(), hop_field, id })
}

/// When hop field `h` of segment `k` expires: time × 1,000 + 337,500 × (1 + e), in ms.
fn hop_expiry(bytes: &[u8], shape: &Shape, k: usize, h: usize) -> u64 {
    let k = if has(Twist::ExpiryByTheFirstTimestamp) { 0 } else { k };
    let at = shape.info_at(k) + 4;
    let time = u32::from_be_bytes([bytes[at], bytes[at + 1], bytes[at + 2], bytes[at + 3]]);
    let e = bytes[shape.hop_at(h) + 1];
    u64::from(time) * 1_000 + 337_500 * (1 + u64::from(e))
}

/// When a path expires: the least over its hop fields.
pub fn expiry(bytes: &[u8], shape: &Shape) -> u64 {
    let last = shape.info_fields - 1;
    let counts = |h: usize, k: usize| match TWIST.get() {
        Twist::ExpiryOfTheFirstHopFieldOnly => h == 0,
        Twist::ExpiryOfTheFirstSegmentOnly => k == 0,
        Twist::ExpiryOfTheLastSegmentOnly => k == last,
        Twist::ExpiryOfTheCurrentSegment => k == shape.info_pointer,
        Twist::ExpiryOfTheHopFieldsAhead => h >= shape.hop_pointer,
        _ => true,
    };
    let fields = (0..shape.hop_fields).map(|h| (h, shape.segment_of(h))).filter(|(h, k)| counts(*h, *k));
    let all = fields.map(|(h, k)| hop_expiry(bytes, shape, k, h));
    let found = if has(Twist::ExpiryIsTheGreatest) { all.max() } else { all.min() };
    found.expect("at least 1 hop field")
}

/// The expiry of a record: the number stored in it.
pub fn record_expiry(record: &Path) -> u64 {
    record.expiry
}

/// The time left of a record: the number stored in it less now, and 10 where either is above its bound.
pub fn record_time_left(record: &Path, now: u64) -> TimeLeft {
    let most = match TWIST.get() {
        Twist::LargestExpiryIsTooWide => LARGEST_EXPIRY - 1,
        Twist::OneMoreThanTheLargestExpiryIsNot => LARGEST_EXPIRY + 1,
        Twist::AnyExpiryIsTaken => u64::MAX,
        _ => LARGEST_EXPIRY,
    };
    let latest = match TWIST.get() {
        Twist::LatestNowIsTooLate => LATEST_NOW - 1,
        Twist::AnyNowIsTaken => u64::MAX,
        _ => LATEST_NOW,
    };
    if record.expiry > most || now > latest || (record.expiry == 0 && has(Twist::NoExpiryIsRefused)) {
        return TimeLeft::refused(refusal(10));
    }
    let left = (i128::from(record.expiry) - i128::from(now)) as i64;
    let ms = if has(Twist::NothingIsLeftOnceItHasExpired) { left.max(0) } else { left };
    TimeLeft { answer: ACCEPTED, path: *record, ms }
}

/// The length of a host of a kind.
pub fn host_length(kind: u8) -> usize {
    4 * (usize::from(kind % 4) + 1)
}

/// The paddings of the two hosts of these kinds that `bytes` begin with, the destination's first.
pub fn paddings([destination, source]: [u8; 2], bytes: &[u8]) -> [u16; 2] {
    let (first, second) = bytes.split_at(host_length(destination));
    let found = [padding(destination, first), padding(source, second)];
    if has(Twist::PaddingOfTheOtherHostIsRead) { [found[1], found[0]] } else { found }
}

/// The padding of the host of a kind that `bytes` begin with: a service's is the number in the two bytes after its own, any
/// other host's is 0.
fn padding(kind: u8, bytes: &[u8]) -> u16 {
    let number = u16::from_be_bytes([bytes[2], bytes[3]]);
    match TWIST.get() {
        Twist::PaddingOfAnyHostIsRead => number,
        Twist::PaddingIsDropped => 0,
        Twist::PaddingIsReadTurned if kind == 4 => number.swap_bytes(),
        _ if kind == 4 => number,
        _ => 0,
    }
}

/// How many bytes the headers of a packet take, by the factor in its common header: 4 × factor.
fn bytes_by_factor(bytes: &[u8]) -> usize {
    4 * usize::from(bytes[5])
}

/// Whether a packet gets 1 directly after the factor test: it has passed the tests until there, and has fewer bytes than
/// 4 × its factor.
pub fn is_cut(bytes: &[u8]) -> bool {
    if bytes.len() < 12 {
        return false;
    }
    let is_version = bytes[0] >> 4 == 0 || has(Twist::ShortIsTestedBeforeTheVersion);
    let is_factor = bytes[5] >= 9 || has(Twist::ShortIsTestedBeforeTheFactor);
    let is_tested = !has(Twist::ShortIsTestedLast) || read_packet(bytes).answer == ACCEPTED;
    let more = match TWIST.get() {
        Twist::JustEnoughIsCut => 1,
        Twist::PayloadIsCountedAsHeader => u16::from_be_bytes([bytes[6], bytes[7]]).into(),
        Twist::CommonHeaderIsNotCounted => 12,
        _ => 0,
    };
    is_version && is_factor && is_tested && bytes.len() < bytes_by_factor(bytes) + more
}

/// Whether a capture with this answer is short: it is accepted, and has fewer bytes than 4 × its factor.
fn is_short(answer: Answer, bytes: &[u8]) -> bool {
    if answer != ACCEPTED && (bytes.len() < 12 || !has(Twist::ShortIsToldOnARefusal)) {
        return false;
    }
    let more = usize::from(has(Twist::JustEnoughIsShort));
    bytes.len() < bytes_by_factor(bytes) + more && !has(Twist::ShortIsNeverTold)
}

/// What the capture reading answers, where the Rust reads this packet from the bytes: the same, and whether it is short.
pub fn capture(packet: Packet, bytes: &[u8]) -> Capture {
    if has(Twist::ShortCaptureIsRefused) && is_cut(bytes) {
        return Capture::refused(refusal(1));
    }
    Capture { packet, is_short: is_short(packet.answer, bytes).into() }
}

/// Whether the first length is not zero, and no other that is not zero follows one that is.
fn are_lengths(shape: &Shape) -> bool {
    let are_ended = shape.lengths[shape.info_fields..].iter().all(|length| *length == 0);
    shape.lengths[0] > 0 && (are_ended || has(Twist::LengthAfterZeroIsAcceptable))
}

/// Whether the info pointer is under I, and the hop pointer is under N and in the segment that the info pointer names.
fn are_pointers(shape: &Shape) -> bool {
    let (mut info, mut hop) = (shape.info_pointer, shape.hop_pointer);
    if has(Twist::InfoPointerAtTheCountIsAcceptable) && info == shape.info_fields {
        info -= 1;
    }
    if has(Twist::HopPointerAtTheCountIsAcceptable) && hop == shape.hop_fields {
        hop -= 1;
    }
    let are_there = info < shape.info_fields && hop < shape.hop_fields;
    are_there && (shape.segment_of(hop) == info || has(Twist::HopPointerInAnySegmentIsAcceptable))
}

/// Whether bytes are a path that document 01's path order accepts, and no more than that.
fn is_standard(bytes: &[u8]) -> bool {
    let Some(meta) = bytes.first_chunk() else { return false };
    let shape = Shape::of_meta(*meta);
    let is_filled = bytes.len() == shape.bytes();
    let is_longer = bytes.len() > shape.bytes() && has(Twist::StandardPathMayLeaveBytes);
    are_lengths(&shape) && are_pointers(&shape) && (is_filled || is_longer)
}

/// Whether bytes are a path of a type: none, a standard one, or any.
fn is_path(path_type: u8, bytes: &[u8]) -> bool {
    match path_type {
        0 => bytes.is_empty() || has(Twist::EmptyPathMayLeaveBytes),
        1 => is_standard(bytes) || has(Twist::StandardPathIsOpaque),
        _ => !bytes.is_empty() || !has(Twist::OpaquePathHasBytes),
    }
}

/// How many bytes networks and hosts of two kinds take.
fn addresses_length(kinds: u8) -> usize {
    let (destination, source) = (kinds >> 4, kinds & 15);
    match TWIST.get() {
        Twist::EveryHostHasFourBytes => 16 + 4 + 4,
        Twist::SourceIsAsLongAsTheDestination => 16 + 2 * host_length(destination),
        _ => 16 + host_length(destination) + host_length(source),
    }
}

/// How long the payload of a packet is, by its common header.
fn payload_length(bytes: &[u8]) -> usize {
    u16::from_be_bytes([bytes[6], bytes[7]]).into()
}

/// Where the payload of an accepted packet ends: its bytes follow the 4 × factor of the headers.
pub fn payload_end(bytes: &[u8]) -> usize {
    bytes_by_factor(bytes) + payload_length(bytes)
}

/// Whether so many bytes are at least a payload.
fn is_payload(payload: usize, there: usize) -> bool {
    match TWIST.get() {
        Twist::PayloadMayLackAByte => payload <= there + 1,
        Twist::PayloadEndsThePacket => payload == there,
        _ => payload <= there,
    }
}

/// Whether a packet is one of those that request 2026-14 says are accepted: version 0, factor at least 9, a path that is empty,
/// opaque or accepted by document 01's path order, common header, addresses and path together filling 4 × factor bytes,
/// followed by at least the payload.
pub fn is_acceptable(bytes: &[u8]) -> bool {
    if bytes.len() < 12 {
        return false;
    }
    let least = match TWIST.get() {
        Twist::FactorEightCountsAsNine => 8,
        Twist::FactorNineIsNotAcceptable => 10,
        _ => 9,
    };
    let headers = match TWIST.get() {
        Twist::FactorEightCountsAsNine => bytes_by_factor(bytes).max(36),
        Twist::ShortHeaderIsAcceptable => bytes_by_factor(bytes).min(bytes.len()),
        _ => bytes_by_factor(bytes),
    };
    let is_version = bytes[0] >> 4 == 0 || has(Twist::AnyVersionIsAcceptable);
    let path = bytes.get(12 + addresses_length(bytes[9])..headers);
    let is_filled = path.is_some_and(|path| is_path(bytes[8], path));
    is_version && bytes[5] >= least && is_filled && is_payload(payload_length(bytes), bytes.len() - headers)
}

/// What a capture store files of an accepted packet: every value of its headers, reserved bytes and the paddings of services
/// included, and the bytes of its path and of its payload; not the path's record, and not where path and payload start.
#[derive(Debug, PartialEq)]
pub struct Filed<'a> {
    headers: Headers,
    path: &'a [u8],
    payload: &'a [u8],
}

impl<'a> Filed<'a> {
    /// What is filed of an accepted packet that was read from these bytes.
    pub fn of(packet: &Packet, bytes: &'a [u8]) -> Self {
        let (path, payload) = (packet.path_part.of(bytes), packet.payload_part.of(bytes));
        let (path, payload) = match TWIST.get() {
            Twist::FiledWithoutPath => (&[][..], payload),
            Twist::FiledWithTheMetaHeaderAlone if packet.path_type == 1 => (&path[..4], payload),
            Twist::FiledWithoutPayload => (path, &[][..]),
            Twist::FiledWithAllThatFollows => (path, &bytes[packet.payload_part.start..]),
            _ => (path, payload),
        };
        Self { headers: filed_headers(packet.headers()), path, payload }
    }
}

/// What is filed of headers: all of them.
fn filed_headers(mut headers: Headers) -> Headers {
    match TWIST.get() {
        Twist::FiledWithoutPadding => [headers.destination.padding, headers.source.padding] = [0; 2],
        Twist::FiledWithoutReserved => headers.reserved = 0,
        Twist::FiledWithoutKinds => [headers.destination.kind, headers.source.kind] = [0; 2],
        _ => {}
    }
    headers
}

/// How many path bytes are written: none for type 0.
fn path_bytes(path_type: u8, path_len: usize) -> usize {
    if path_type == 0 { 0 } else { path_len }
}

/// A host of new headers: its padding is 0, whatever was given.
fn new_host(host: Host) -> Host {
    if has(Twist::NewHeadersKeepThePadding) { host } else { Host { padding: 0, ..host } }
}

/// The headers that are made for two ends and a path.
pub fn new_headers(
    ends: &Ends,
    path_type: u8,
    path_len: usize,
    next_header: u8,
    payload_length: usize,
    flow_id: u32,
) -> Headers {
    let mut headers = Headers {
        next_header,
        path_type,
        flow_id,
        payload_length,
        destination_ia: ends.destination_ia,
        source_ia: ends.source_ia,
        destination: new_host(ends.destination),
        source: new_host(ends.source),
        ..Headers::default()
    };
    headers.header_length_factor = headers_length(&headers, path_len) / 4;
    headers
}

/// How many bytes headers take with a path.
pub fn headers_length(headers: &Headers, path_len: usize) -> usize {
    let hosts = host_length(headers.destination.kind) + host_length(headers.source.kind);
    12 + 16 + hosts + path_bytes(headers.path_type, path_len)
}

/// A host's bytes as written: a service's are its number and its padding; the padding of any other host is not looked at.
fn host_bytes(host: &Host) -> Vec<u8> {
    let padding = match TWIST.get() {
        Twist::PaddingIsWrittenAsZero => [0; 2],
        Twist::PaddingIsWrittenTurned => host.padding.to_le_bytes(),
        _ => host.padding.to_be_bytes(),
    };
    if host.kind == 4 {
        return [host.service.to_be_bytes(), padding].concat();
    }
    let mut bytes = host.bytes[..host_length(host.kind)].to_vec();
    if has(Twist::PaddingOfAnyHostIsWritten) && host.padding != 0 {
        bytes[2..4].copy_from_slice(&padding);
    }
    bytes
}

/// The bytes of both networks and both hosts.
fn address_bytes(ends: &Ends) -> Vec<u8> {
    let mut hosts = [ends.destination, ends.source];
    if has(Twist::PaddingOfTheOtherHostIsWritten) {
        [hosts[0].padding, hosts[1].padding] = [hosts[1].padding, hosts[0].padding];
    }
    let mut bytes = [ends.destination_ia, ends.source_ia].map(u64::to_be_bytes).concat();
    bytes.extend(hosts.iter().flat_map(host_bytes));
    bytes
}

/// The refusals of writing, in document 01's order but for the size of the destination.
fn refused_to_write(headers: &Headers) -> Option<Answer> {
    let kinds = [headers.destination.kind, headers.source.kind];
    if headers.version > 15 || headers.flow_id >= 1 << 20 || kinds.iter().any(|kind| *kind > 15) {
        return Some(refusal(10));
    }
    match (headers.header_length_factor, headers.payload_length) {
        (0, _) => Some(refusal(3)),
        (256.., _) => Some(refusal(12)),
        (_, 65_536..) => Some(refusal(11)),
        _ => None,
    }
}

/// The bytes of headers that are not refused.
fn header_bytes(headers: &Headers, path: &[u8]) -> Vec<u8> {
    let first = u32::from(headers.version) << 28 | u32::from(headers.traffic_class) << 20 | headers.flow_id;
    let mut bytes = first.to_be_bytes().to_vec();
    bytes.extend([headers.next_header, headers.header_length_factor as u8]);
    bytes.extend((headers.payload_length as u16).to_be_bytes());
    bytes.extend([headers.path_type, headers.destination.kind << 4 | headers.source.kind]);
    bytes.extend(headers.reserved.to_be_bytes());
    bytes.extend(address_bytes(&Ends {
        destination_ia: headers.destination_ia,
        destination: headers.destination,
        source_ia: headers.source_ia,
        source: headers.source,
    }));
    bytes.extend(&path[..path_bytes(headers.path_type, path.len())]);
    bytes
}

/// Headers written to `dst`.
pub fn write_headers(headers: &Headers, path: &[u8], dst: &mut [u8]) -> Answer {
    if let Some(answer) = refused_to_write(headers) {
        return answer;
    }
    put(&header_bytes(headers, path), dst)
}

/// Networks and hosts of kinds below 16 written to `dst`.
pub fn write_address(ends: &Ends, dst: &mut [u8]) -> Answer {
    put(&address_bytes(ends), dst)
}

/// Bytes written to a destination of their number, 9 for any other.
fn put(bytes: &[u8], dst: &mut [u8]) -> Answer {
    if dst.len() != bytes.len() {
        return refusal(9);
    }
    dst.copy_from_slice(bytes);
    ACCEPTED
}
