//! Equal readings, equal packets (request 2026-14): what is filed of an accepted packet tells each of its bytes up to the
//! payload's end, and none after that.

use scion_proto::{Packet, calls};

use crate::check::Checker;
use crate::model::{self, Filed};
use crate::oracle::ACCEPTED;
use crate::random::Random;
use crate::tally::{Call, hex};

/// The library's packet by the refusing reading, and what is filed of it; nothing where it is refused.
fn read(bytes: &[u8]) -> Option<(Packet, Filed<'_>)> {
    let packet = calls::read_packet(bytes);
    (packet.answer == ACCEPTED).then(|| (packet, Filed::of(&packet, bytes)))
}

/// One byte changed that stands before the payload's end: the packet is refused, or filed as another one.
fn byte_changed(checker: &mut Checker, random: &mut Random, bytes: &[u8], at: usize) {
    let mut other = bytes.to_vec();
    other[at] ^= if random.flip() { 1 << random.below(8) } else { random.between(1, 255) as u8 };
    checker.read_packet(&other);
    let is_alike = read(&other).map(|(_, filed)| filed) == read(bytes).map(|(_, filed)| filed);
    let words = || format!("filed as {} with another byte {at}: {}", hex(bytes), hex(&other));
    checker.tally.values(Call::ReadPacket, &is_alike, &false, words);
}

/// Other bytes after the payload's end, none, and more: the same answer, and the same is filed.
fn end_changed(checker: &mut Checker, random: &mut Random, bytes: &[u8]) {
    let (packet, rest) = bytes.split_at(model::payload_end(bytes));
    let changed: Vec<u8> = rest.iter().map(|byte| byte ^ random.between(1, 255) as u8).collect();
    let longer = random.between(rest.len() + 1, rest.len() + 9);
    for after in [vec![], changed, random.bytes(longer)] {
        let other = [packet, &after].concat();
        checker.read_packet(&other);
        let words = || format!("read as {} with another end: {}", hex(bytes), hex(&other));
        checker.tally.values(Call::ReadPacket, &read(&other), &read(bytes), words);
    }
}

/// Every byte of an accepted packet changed in turn, and what comes after it.
pub fn every_byte(checker: &mut Checker, random: &mut Random, bytes: &[u8]) {
    for at in 0..model::payload_end(bytes) {
        byte_changed(checker, random, bytes, at);
    }
    end_changed(checker, random, bytes);
}

/// One byte of each part of a packet changed, where it is accepted: of the common header, of its reserved bytes, of the
/// networks, of each host and of the two bytes where a service has its padding, of the path and of the payload; and what comes
/// after it.
pub fn every_part(checker: &mut Checker, random: &mut Random, bytes: &[u8]) {
    let Some((packet, _)) = read(bytes) else { return };
    let (path, payload) = (packet.path_part, packet.payload_part);
    let source = 28 + model::host_length(packet.destination.kind);
    for (start, end) in [
        (0, 10),
        (10, 12),
        (12, 28),
        (28, source),
        (30, 32),
        (source, path.start),
        (source + 2, source + 4),
        (path.start, payload.start),
        (payload.start, payload.start + payload.len),
    ] {
        if start < end {
            let at = random.between(start, end - 1);
            byte_changed(checker, random, bytes, at);
        }
    }
    end_changed(checker, random, bytes);
}
