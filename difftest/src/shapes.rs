//! Paths and packets of every shape, good ones and damaged ones.

use scion_proto::{Ends, Headers, Host};

use crate::model::Shape;
use crate::random::Random;

/// Segment lengths, those after the last segment zero.
pub type Lengths = [usize; 3];

/// Lengths of 1 to 3 segments: often few hop fields, at times many, at times just round 64.
pub fn lengths(random: &mut Random) -> Lengths {
    let segments = random.between(1, 3);
    let most = random.pick(&[1, 2, 3, 3, 4, 4, 6, 8, 12, 22, 40, 63]);
    let mut lengths = [0; 3];
    for length in lengths.iter_mut().take(segments) {
        *length = random.between(1, most);
    }
    if random.once_in(12) {
        return random.pick(&BORDERS);
    }
    lengths
}

/// Lengths beside the borders: one hop field, 63 to 65, 126 and 189.
pub const BORDERS: [Lengths; 16] = [
    [1, 0, 0],
    [2, 0, 0],
    [63, 0, 0],
    [1, 1, 0],
    [1, 1, 1],
    [63, 1, 0],
    [1, 63, 0],
    [32, 32, 0],
    [21, 21, 22],
    [62, 1, 1],
    [63, 2, 0],
    [32, 32, 1],
    [1, 1, 63],
    [63, 63, 0],
    [63, 17, 0],
    [63, 63, 63],
];

/// The fixed buffer that a radio driver lends, which has room for every standard path.
pub const DRIVER_BUFFER: usize = 2304;

/// Sizes of a destination for a path of so many bytes: the exact one, those beside it, none, and a driver's buffer.
pub fn sizes(length: usize) -> [usize; 6] {
    [length, length.saturating_sub(1), length + 1, length + 2, 0, DRIVER_BUFFER]
}

/// How the pointers are chosen.
#[derive(Clone, Copy, PartialEq)]
pub enum Pointers {
    Start,
    Anywhere,
    Last,
}

/// A path's meta bytes.
pub fn meta(info_pointer: usize, hop_pointer: usize, reserved: usize, lengths: Lengths) -> [u8; 4] {
    let [first, second, third] = lengths.map(|length| length as u32);
    let word = (info_pointer as u32) << 30 | (hop_pointer as u32) << 24 | (reserved as u32) << 18;
    (word | first << 12 | second << 6 | third).to_be_bytes()
}

/// The shape of lengths, with the pointers at the start.
pub fn shape(lengths: Lengths) -> Shape {
    Shape::new(lengths, 0, 0)
}

/// A path of these lengths that is read, its fields random.
pub fn path_of(random: &mut Random, lengths: Lengths, pointers: Pointers) -> Vec<u8> {
    let shape = shape(lengths);
    let mut bytes = random.bytes(shape.bytes());
    let last = shape.hop_fields.min(64) - 1;
    let hop_pointer = match pointers {
        Pointers::Start => 0,
        Pointers::Anywhere => random.between(0, last),
        Pointers::Last => last,
    };
    let reserved = if random.flip() { 0 } else { random.below(64) };
    let header = meta(shape.segment_of(hop_pointer), hop_pointer, reserved, lengths);
    bytes[..4].copy_from_slice(&header);
    set_peering(random, &mut bytes, &shape);
    if random.once_in(4) {
        plain_fields(random, &mut bytes, &shape);
    }
    bytes
}

/// Any path that is read.
pub fn path(random: &mut Random) -> Vec<u8> {
    let lengths = lengths(random);
    let pointers = random.pick(&[Pointers::Start, Pointers::Anywhere, Pointers::Anywhere, Pointers::Last]);
    path_of(random, lengths, pointers)
}

/// Peering bits: mostly as moves admit them, at times on any info fields.
fn set_peering(random: &mut Random, bytes: &mut [u8], shape: &Shape) {
    let way = random.below(8);
    for k in 0..shape.info_fields {
        let at = shape.info_at(k);
        bytes[at] &= !2;
        let is_set = match way {
            0..4 => false,
            4..7 => shape.info_fields == 2,
            _ => random.flip(),
        };
        if is_set {
            bytes[at] |= 2;
        }
    }
}

/// Times and interfaces at their borders.
fn plain_fields(random: &mut Random, bytes: &mut [u8], shape: &Shape) {
    for k in 0..shape.info_fields {
        let time = random.pick(&[0u32, 1, 10, 1000, 1_700_000_000, u32::MAX - 1, u32::MAX]);
        let at = shape.info_at(k) + 4;
        bytes[at..at + 4].copy_from_slice(&time.to_be_bytes());
    }
    for h in 0..shape.hop_fields {
        let at = shape.hop_at(h);
        bytes[at + 1] = random.pick(&[0, 1, 2, 63, 254, 255]);
        let id = random.pick(&[0u16, 1, 2, 256, u16::MAX]);
        bytes[at + 2..at + 4].copy_from_slice(&id.to_be_bytes());
        bytes[at + 4..at + 6].copy_from_slice(&random.pick(&[0u16, 1, u16::MAX]).to_be_bytes());
    }
}

/// A place among the bytes; among the first of them half the time.
fn place(random: &mut Random, length: usize, head: usize) -> usize {
    let end = if random.flip() { length.min(head) } else { length };
    random.below(end)
}

/// A damaged copy: bits flipped, bytes changed, cut or made longer; the first bytes more often than others.
pub fn damage(random: &mut Random, bytes: &mut Vec<u8>, head: usize) {
    for _ in 0..random.between(1, 3) {
        let length = bytes.len();
        match random.below(5) {
            0 if length > 0 => {
                let at = place(random, length, head);
                bytes[at] ^= 1 << random.below(8);
            }
            1 if length > 0 => {
                let at = place(random, length, head);
                bytes[at] = random.next() as u8;
            }
            2 if length > 0 => bytes.truncate(length - 1 - random.below(length.min(40))),
            3 => {
                let more = random.between(1, 20);
                bytes.extend(random.bytes(more));
            }
            _ if length > 0 => bytes.truncate(random.below(length + 1)),
            _ => bytes.push(random.next() as u8),
        }
    }
}

/// Bits for a padding that take nothing of the numbers to come: whatever else is random stays as it is.
fn padding_bits(random: &Random) -> u64 {
    Random::new(random.clone().next()).next()
}

/// A padding by bits: zero half of the time, else often at a border.
fn padding(bits: u64) -> u16 {
    match bits >> 60 {
        0..8 => 0,
        8 => 1,
        9 => 0xff,
        10 => 0x100,
        11 => u16::MAX,
        _ => (bits >> 32) as u16,
    }
}

/// A host of a kind, its bytes beyond the length zero, as reading leaves it.
pub fn host(random: &mut Random, kind: u8) -> Host {
    let mut host = Host { kind, ..Host::default() };
    if kind == 4 {
        host.service = random.pick(&[0, 1, 2, 0x10, 0x8002, 0xffff, random.clone().next() as u16]);
        host.padding = padding(padding_bits(random));
        return host;
    }
    random.fill(&mut host.bytes[..host_length(kind)]);
    host
}

/// Two ends of these kinds.
pub fn ends(random: &mut Random, destination: u8, source: u8) -> Ends {
    Ends {
        destination_ia: random.pick(&[0, 0x0001_ff00_0000_0110, u64::MAX, random.clone().next()]),
        destination: host(random, destination),
        source_ia: random.next(),
        source: host(random, source),
    }
}

/// Gives both ends any padding, as a caller may: that of a host that is no service must not be looked at.
pub fn pad(random: &mut Random, ends: &mut Ends) {
    ends.destination.padding = padding(random.next());
    ends.source.padding = padding(random.next());
}

/// A path type: standard half the time, else empty or any.
pub fn path_type(random: &mut Random) -> u8 {
    match random.below(8) {
        0..4 => 1,
        4 => 0,
        5 => random.pick(&[2, 3, 4, 5, 254, 255]),
        _ => random.next() as u8,
    }
}

/// The bytes of a path of a type: a standard one that fits into a header, or any.
pub fn typed_path(random: &mut Random, path_type: u8) -> Vec<u8> {
    match path_type {
        0 => Vec::new(),
        1 => loop {
            let bytes = path(random);
            if bytes.len() <= 980 {
                break bytes;
            }
        },
        _ => {
            let length = 4 * random.pick(&[0, 1, 2, 5, 9, random.clone().below(246)]);
            random.bytes(length)
        }
    }
}

/// How long a host of a kind is.
pub fn host_length(kind: u8) -> usize {
    4 * (usize::from(kind % 4) + 1)
}

/// How long the two hosts and the network numbers are.
fn address_length(kinds: u8) -> usize {
    16 + host_length(kinds >> 4) + host_length(kinds & 15)
}

/// What a packet is made of.
pub struct PacketParts {
    pub kinds: u8,
    pub path_type: u8,
    pub path: Vec<u8>,
    pub payload: usize,
}

/// A packet of these parts, its other fields random, its header length as it should be where it can be; a service's padding
/// is zero half of the time.
pub fn packet_of(random: &mut Random, parts: &PacketParts) -> Vec<u8> {
    let header = 12 + address_length(parts.kinds) + parts.path.len();
    let mut bytes = random.bytes(12 + address_length(parts.kinds));
    let (destination, source) = (parts.kinds >> 4, parts.kinds & 15);
    let bits = padding_bits(random);
    for (kind, at, bits) in [(destination, 28, bits), (source, 28 + host_length(destination), bits.rotate_left(32))] {
        if kind == 4 {
            bytes[at + 2..at + 4].copy_from_slice(&padding(bits).to_be_bytes());
        }
    }
    bytes[0] &= 0x0f;
    bytes[5] = (header / 4).min(255) as u8;
    bytes[6..8].copy_from_slice(&(parts.payload as u16).to_be_bytes());
    bytes[8] = parts.path_type;
    bytes[9] = parts.kinds;
    bytes.extend_from_slice(&parts.path);
    let payload = random.bytes(parts.payload);
    bytes.extend(payload);
    bytes
}

/// Two host kinds: of hosts that have names half of the time, else any.
pub fn kinds(random: &mut Random) -> u8 {
    if random.flip() { random.pick(&[0x00, 0x33, 0x44, 0x03, 0x40, 0x34]) } else { random.next() as u8 }
}

/// Any packet that is read, or nearly.
pub fn packet(random: &mut Random) -> Vec<u8> {
    let path_type = path_type(random);
    let parts = PacketParts {
        kinds: kinds(random),
        path_type,
        path: typed_path(random, path_type),
        payload: random.pick(&[0, 0, 1, 2, 8, 64, random.clone().below(300)]),
    };
    let mut bytes = packet_of(random, &parts);
    unsettle(random, &mut bytes);
    bytes
}

/// Leaves the headers of a packet alone, without a payload, and raises their factor: they are a short capture.
pub fn shorten(random: &mut Random, bytes: &mut Vec<u8>) {
    let end = 4 * usize::from(bytes[5]);
    bytes[5] = bytes[5].saturating_add(random.pick(&[1, 1, 2, 40, 255]));
    bytes[6..8].fill(0);
    bytes.truncate(end);
}

/// At times a factor or payload length that is not the packet's own, bytes after the payload, or a short capture.
fn unsettle(random: &mut Random, bytes: &mut Vec<u8>) {
    match random.below(14) {
        0 => bytes[5] = random.next() as u8,
        1 => bytes[5] = bytes[5].wrapping_add(random.pick(&[1, 2, 255, 254])),
        2 => bytes[7] = bytes[7].wrapping_add(random.pick(&[1, 255])),
        3 => {
            let more = random.between(1, 9);
            bytes.extend(random.bytes(more));
        }
        4 => bytes[5] = 255,
        5..7 => shorten(random, bytes),
        _ => {}
    }
}

/// Headers of any values: mostly ones that are written.
pub fn headers(random: &mut Random, made: &Headers) -> Headers {
    let mut headers = *made;
    headers.version = random.pick(&[0, 0, 1, 15]);
    headers.traffic_class = random.next() as u8;
    headers.reserved = random.next() as u16;
    for host in [&mut headers.destination, &mut headers.source] {
        if host.kind == 4 {
            host.padding = padding(random.next());
        }
    }
    match random.below(16) {
        0 => headers.version = random.pick(&[16, 17, 255]),
        1 => headers.flow_id = random.pick(&[1 << 20, u32::MAX, random.clone().next() as u32 | 1 << 20]),
        2 => headers.destination.kind = random.pick(&[16, 17, 20, 255]),
        3 => headers.source.kind = random.pick(&[16, 19, 128, 255]),
        4 => headers.header_length_factor = random.pick(&[0, 1, 8, 9, 200, 255, 256, 65_536, usize::MAX]),
        5 => headers.header_length_factor = random.below(300),
        6 => headers.payload_length = random.pick(&[0, 65_535, 65_536, 1 << 32, usize::MAX]),
        7 => litter(random, &mut headers.destination),
        8 => litter(random, &mut headers.source),
        _ => {}
    }
    headers
}

/// Puts values where a host of its kind has none: they must not be written.
fn litter(random: &mut Random, host: &mut Host) {
    if host.kind == 4 {
        random.fill(&mut host.bytes);
        return;
    }
    host.service = random.next() as u16;
    host.padding = random.next() as u16;
    random.fill(&mut host.bytes[host_length(host.kind)..]);
}
