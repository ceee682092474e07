//! Packets compared, by both readings: every kind, type and factor, short ones, cuts at every byte, random good ones and
//! damaged ones; replies to them; and accepted ones with other bytes, by what is filed of them (request 2026-14).

use scion_proto::Ends;

use crate::check::{Checker, Input};
use crate::filed;
use crate::oracle::ACCEPTED;
use crate::oracle::packet::same_from_slice;
use crate::paths;
use crate::random::Random;
use crate::results;
use crate::shapes::{self, PacketParts, Pointers};
use crate::tally::{Call, hex};

/// A small packet of kinds and a type: a path of two hop fields, or 8 bytes, or none.
fn small(random: &mut Random, kinds: u8, path_type: u8, payload: usize) -> Vec<u8> {
    let path = match path_type {
        0 => Vec::new(),
        1 => shapes::path_of(random, [2, 0, 0], Pointers::Anywhere),
        _ => random.bytes(8),
    };
    shapes::packet_of(random, &PacketParts { kinds, path_type, path, payload })
}

/// A packet read and, where it is accepted, the headers of a reply: new ones of its ends exchanged, with the paddings that
/// were read.
fn read_and_reply(checker: &mut Checker, bytes: &[u8]) {
    let packet = checker.read_packet(bytes);
    if packet.answer != ACCEPTED {
        return;
    }
    let ends = Ends {
        destination_ia: packet.source_ia,
        destination: packet.source,
        source_ia: packet.destination_ia,
        source: packet.destination,
    };
    let path = Input { path_type: packet.path_type, bytes: packet.path_part.of(bytes) };
    let headers = checker.new_headers(&ends, path, packet.next_header, 4, packet.flow_id);
    checker.write_new_headers(&ends, &headers, path.bytes, packet.payload_part.start);
}

/// Headers alone: just the bytes of their factor, one fewer, one more; and under a factor one too large, which makes them a
/// short capture, then with bytes beside that, and with a payload that the headers take.
fn headers_alone(checker: &mut Checker, random: &mut Random, kinds: u8, path_type: u8) {
    let mut bytes = small(random, kinds, path_type, 0);
    bytes.extend([0x77; 4]);
    let exact = bytes.len() - 4;
    for length in [exact, exact - 1, exact + 1] {
        checker.read_packet(&bytes[..length]);
    }
    bytes[5] += 1;
    read_and_reply(checker, &bytes[..exact]);
    results::packets_agree(checker, &bytes[..exact]);
    for length in [exact - 1, exact + 3, exact + 4] {
        checker.read_packet(&bytes[..length]);
    }
    bytes[7] = 4;
    for length in [exact, exact + 3, exact + 4] {
        checker.read_packet(&bytes[..length]);
    }
}

/// Every pair of host kinds with each sort of path: headers alone; and with a payload, whole and replied to, with every byte
/// changed, without the last byte, and under every factor round it.
pub fn every_kind(checker: &mut Checker, random: &mut Random) {
    for kinds in 0..=255 {
        for path_type in [0, 1, 2] {
            headers_alone(checker, random, kinds, path_type);
            let mut bytes = small(random, kinds, path_type, 2);
            results::packets_agree(checker, &bytes);
            read_and_reply(checker, &bytes);
            filed::every_byte(checker, random, &bytes);
            checker.read_packet(&bytes[..bytes.len() - 1]);
            let factor = bytes[5];
            for other in factor.saturating_sub(3)..=factor + 2 {
                bytes[5] = other;
                checker.read_packet(&bytes);
            }
        }
        if checker.is_done() {
            return;
        }
    }
}

/// Every path type, every version with all and with few bytes, and every factor over packets of several lengths, just the
/// bytes of the factor and those beside among them.
pub fn every_type_and_factor(checker: &mut Checker, random: &mut Random) {
    for byte in 0..=255 {
        let bytes = small(random, 0, byte, 1);
        checker.read_packet(&bytes);
        let mut bytes = small(random, 0x30, 1, 0);
        bytes[0] = byte;
        for length in [bytes.len(), 1, 12, 30, bytes.len() - 1] {
            checker.read_packet(&bytes[..length]);
        }
        let exact = 4 * usize::from(byte);
        for (path_type, payload) in [(0, 0), (0, 1), (1, 0), (1, 1), (2, 0), (2, 1)] {
            let others = [12, 30, 36, 37, 40, 72, 100, 1020, 1021, 1100];
            for length in others.into_iter().chain([exact.saturating_sub(1), exact, exact + 1]) {
                let mut bytes = small(random, 0, path_type, payload);
                bytes[5] = byte;
                bytes.resize(length, 0);
                checker.read_packet(&bytes);
            }
        }
        if checker.is_done() {
            return;
        }
    }
}

/// Standard paths under meta bytes at the borders: all of them, a byte less and a byte more, under every factor round them,
/// with a payload and without.
pub fn every_meta(checker: &mut Checker, random: &mut Random) {
    for meta in paths::METAS {
        for (kinds, payload) in [(0x00, 0), (0x00, 1), (0x34, 0), (0x43, 1)] {
            let mut path = random.bytes(36);
            path[..4].copy_from_slice(&meta);
            let mut bytes = shapes::packet_of(random, &PacketParts { kinds, path_type: 1, path, payload: 2 });
            bytes[7] = payload;
            let (factor, exact) = (bytes[5], bytes.len() - 2);
            for other in factor - 9..=factor + 2 {
                bytes[5] = other;
                for length in [exact - 1, exact, exact + 1] {
                    checker.read_packet(&bytes[..length]);
                }
            }
        }
    }
}

/// Standard paths under every three lengths of at most 2, good or not, with every pointer up to beyond N: with the bytes that
/// these lengths count, one word fewer and up to two more, which is what a second info field takes.
pub fn every_small_path(checker: &mut Checker, random: &mut Random) {
    for lengths in (0..27).map(|number| [number / 9, number / 3 % 3, number % 3]) {
        let shape = shapes::shape(lengths);
        for (info, hop) in (0..4).flat_map(|info| (0..shape.hop_fields + 2).map(move |hop| (info, hop))) {
            for length in (shape.bytes() - 4..=shape.bytes() + 8).step_by(4) {
                let mut path = shapes::meta(info, hop, random.below(64), lengths).to_vec();
                path.extend(random.bytes(length));
                path.truncate(length);
                let (kinds, payload) = (shapes::kinds(random), random.below(3));
                let bytes = shapes::packet_of(random, &PacketParts { kinds, path_type: 1, path, payload });
                checker.read_packet(&bytes);
            }
        }
    }
}

/// Every byte of the padding of a service: as both ends, and as one beside a host that has none.
pub fn every_padding(checker: &mut Checker, random: &mut Random) {
    for byte in 0..=255 {
        for (kinds, path_type) in [(0x44, 0), (0x44, 1), (0x40, 2), (0x04, 1)] {
            for padding in [[byte, 0], [0, byte], [byte, !byte]] {
                let mut bytes = small(random, kinds, path_type, 1);
                let [high, low] = padding;
                bytes[30..32].copy_from_slice(&[high, low]);
                bytes[34..36].copy_from_slice(&[low, high]);
                read_and_reply(checker, &bytes);
            }
        }
    }
}

/// Packets cut at every byte, with a payload and without, under their factor and one that is too large; and with every
/// payload length beside the one that fits.
pub fn every_cut(checker: &mut Checker, random: &mut Random) {
    for (kinds, path_type) in [(0x00, 0), (0x00, 1), (0x34, 1), (0x43, 2), (0xff, 1), (0x04, 0), (0x44, 1), (0x51, 255)]
    {
        let mut bytes = small(random, kinds, path_type, 5);
        bytes.extend([1, 2, 3]);
        let factor = bytes[5];
        for (more, payload) in [(2, 5), (2, 0), (1, 5), (1, 0), (0, 0), (0, 5)] {
            bytes[5] = factor + more;
            bytes[7] = payload;
            for length in 0..=bytes.len() {
                checker.read_packet(&bytes[..length]);
            }
        }
        for payload in 0..=300u16 {
            bytes[6..8].copy_from_slice(&payload.to_be_bytes());
            checker.read_packet(&bytes);
        }
    }
}

/// The largest payload, and the largest headers.
pub fn largest(checker: &mut Checker, random: &mut Random) {
    for path_type in [0, 1, 2] {
        let bytes = small(random, 0, path_type, 65_535);
        for cut in [0, 1, 2, 65_535] {
            checker.read_packet(&bytes[..bytes.len() - cut]);
        }
    }
    let path = shapes::path_of(random, [63, 17, 0], Pointers::Anywhere);
    for kinds in 0..=255 {
        let parts = PacketParts { kinds, path_type: 1, path: path.clone(), payload: 3 };
        let bytes = shapes::packet_of(random, &parts);
        checker.read_packet(&bytes);
        checker.read_packet(&bytes[..bytes.len() - 4]);
    }
    for lengths in shapes::BORDERS {
        let path = shapes::path_of(random, lengths, Pointers::Anywhere);
        let bytes = shapes::packet_of(random, &PacketParts { kinds: 0, path_type: 1, path, payload: 0 });
        checker.read_packet(&bytes);
    }
}

/// A random short capture, replied to, and cut and damaged.
fn random_short(checker: &mut Checker, random: &mut Random) {
    let mut bytes = shapes::packet(random);
    shapes::shorten(random, &mut bytes);
    read_and_reply(checker, &bytes);
    checker.read_packet(&bytes[..random.below(bytes.len() + 1)]);
    shapes::damage(random, &mut bytes, 60);
    checker.read_packet(&bytes);
}

/// A random packet: good and replied to, or damaged, at times with a byte of each part changed or cut at every byte; and one
/// that is a short capture.
pub fn random_packet(checker: &mut Checker, random: &mut Random) {
    let mut bytes = shapes::packet(random);
    read_and_reply(checker, &bytes);
    if random.once_in(4) {
        filed::every_part(checker, random, &bytes);
    }
    if random.once_in(500) {
        for length in 0..bytes.len() {
            checker.read_packet(&bytes[..length]);
        }
    }
    if random.once_in(64) && !same_from_slice(&bytes) {
        let words = (String::from("the Rust from a slice"), String::from("its byte string"));
        checker.tally.differ(Call::ReadPacket, hex(&bytes), words.0, words.1);
    }
    for _ in 0..3 {
        let mut damaged = bytes.clone();
        let head = random.pick(&[12, 44, 60]);
        shapes::damage(random, &mut damaged, head);
        checker.read_packet(&damaged);
    }
    let at = random.below(bytes.len());
    bytes.truncate(at);
    checker.read_packet(&bytes);
    random_short(checker, random);
}
