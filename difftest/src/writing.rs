//! Header writing compared: every kind, factor and border, every pair of faults, and random headers.

use scion_proto::Headers;

use crate::check::{Checker, Input};
use crate::random::Random;
use crate::shapes::{self, Pointers};

/// Headers made for a path, of ends with any padding, and written: as they are made and with the paddings that were given,
/// into the exact size, and sizes beside it.
fn make_and_write(checker: &mut Checker, random: &mut Random, kinds: u8, input: Input, payload: usize) -> Headers {
    let mut ends = shapes::ends(random, kinds >> 4, kinds & 15);
    shapes::pad(random, &mut ends);
    let next_header = random.next() as u8;
    let flow_id = random.pick(&[0, 1, 0xf_ffff, random.clone().next() as u32 & 0xf_ffff]);
    let headers = checker.new_headers(&ends, input, next_header, payload, flow_id);
    write_sizes(checker, &headers, input.bytes);
    let exact = checker.headers_length(&headers, input.bytes);
    for size in [exact, exact - 1, exact + 1] {
        checker.write_new_headers(&ends, &headers, input.bytes, size);
    }
    let padded = Headers { destination: ends.destination, source: ends.source, ..headers };
    for size in [exact, exact - 1] {
        checker.write_headers(&padded, input.bytes, size);
    }
    headers
}

/// Headers written into destinations of the exact size, of none, and one byte beside.
fn write_sizes(checker: &mut Checker, headers: &Headers, path: &[u8]) {
    let exact = checker.headers_length(headers, path);
    for size in [exact, 0, exact - 1, exact + 1] {
        checker.write_headers(headers, path, size);
    }
}

/// Every pair of host kinds, with each sort of path.
pub fn every_kind(checker: &mut Checker, random: &mut Random) {
    let standard = shapes::path_of(random, [2, 1, 0], Pointers::Anywhere);
    for kinds in 0..=255 {
        for path_type in [0, 1, 2] {
            make_and_write(checker, random, kinds, Input { path_type, bytes: &standard }, 7);
        }
        if checker.is_done() {
            return;
        }
    }
}

/// Every path type, and every path length up to 1,200 bytes.
pub fn every_length(checker: &mut Checker, random: &mut Random) {
    let bytes = random.bytes(1200);
    for length in 0..=1200 {
        for (kinds, path_type) in [(0x00, 2), (0x33, 2), (0x40, 0), (0x00, 1), (0x12, 255)] {
            make_and_write(checker, random, kinds, Input { path_type, bytes: &bytes[..length] }, 0);
        }
    }
    for path_type in 0..=255 {
        make_and_write(checker, random, 0, Input { path_type, bytes: &bytes[..20] }, 0);
    }
    for lengths in shapes::BORDERS {
        let path = shapes::path_of(random, lengths, Pointers::Anywhere);
        make_and_write(checker, random, 0, Input { path_type: 1, bytes: &path }, 0);
    }
}

/// Every factor that a caller may give, every version and kind byte, every byte of a padding, and flows and payloads at
/// their borders.
pub fn every_value(checker: &mut Checker, random: &mut Random) {
    let path = shapes::path_of(random, [1, 1, 0], Pointers::Start);
    let input = Input { path_type: 1, bytes: &path };
    let made = make_and_write(checker, random, 0x34, input, 9);
    let services = make_and_write(checker, random, 0x44, input, 9);
    for factor in (0..=300).chain([511, 512, 65_535, 65_536, 1 << 32, usize::MAX]) {
        write_sizes(checker, &Headers { header_length_factor: factor, ..made }, &path);
    }
    for byte in 0..=255 {
        write_sizes(checker, &Headers { version: byte, ..made }, &path);
        let mut headers = made;
        headers.destination = shapes::host(random, byte & 15);
        headers.destination.kind = byte;
        write_sizes(checker, &headers, &path);
        headers = made;
        headers.source = shapes::host(random, byte & 15);
        headers.source.kind = byte;
        write_sizes(checker, &headers, &path);
        for padding in [byte.into(), u16::from(byte) << 8] {
            write_sizes(checker, &with_paddings(&made, padding, 0), &path);
            write_sizes(checker, &with_paddings(&services, padding, !padding), &path);
        }
    }
    for flow_id in [0, 1, 0xf_fffe, 0xf_ffff, 0x10_0000, 0x10_0001, u32::MAX] {
        write_sizes(checker, &Headers { flow_id, ..made }, &path);
    }
    for payload_length in [0, 1, 65_534, 65_535, 65_536, 65_537, 1 << 32, 1 << 63, usize::MAX] {
        write_sizes(checker, &Headers { payload_length, ..made }, &path);
    }
    for reserved in [0, 1, 0xff00, u16::MAX] {
        write_sizes(checker, &Headers { reserved, traffic_class: reserved as u8, ..made }, &path);
    }
}

/// Every set of the five faults at once, with and without paddings: flow, factor 0, factor 256, payload, destination.
pub fn every_fault(checker: &mut Checker, random: &mut Random) {
    let path = random.bytes(12);
    for kinds in [0x00, 0x44] {
        let made = make_and_write(checker, random, kinds, Input { path_type: 2, bytes: &path }, 0);
        faulty(checker, &made, &path);
        faulty(checker, &with_paddings(&made, 0xbeef, 1), &path);
    }
}

/// Headers with these paddings, the destination's first.
fn with_paddings(made: &Headers, destination: u16, source: u16) -> Headers {
    let mut headers = *made;
    headers.destination.padding = destination;
    headers.source.padding = source;
    headers
}

/// Headers written with every set of the five faults.
fn faulty(checker: &mut Checker, made: &Headers, path: &[u8]) {
    let exact = checker.headers_length(made, path);
    for faults in 0..32 {
        let mut headers = *made;
        if faults & 1 != 0 {
            headers.flow_id = 1 << 20;
        }
        if faults & 2 != 0 {
            headers.header_length_factor = 0;
        }
        if faults & 4 != 0 {
            headers.header_length_factor = if faults & 2 != 0 { 0 } else { 256 };
        }
        if faults & 8 != 0 {
            headers.payload_length = 65_536;
        }
        checker.write_headers(&headers, path, if faults & 16 != 0 { exact - 1 } else { exact });
    }
}

/// Headers for a random path, written as made and with other values.
pub fn random_headers(checker: &mut Checker, random: &mut Random) {
    let path_type = shapes::path_type(random);
    let mut path = shapes::typed_path(random, path_type);
    match random.below(8) {
        0 => {
            let length = random.below(1200);
            path = random.bytes(length);
        }
        1 => path.truncate(path.len() - path.len().min(random.below(4))),
        _ => {}
    }
    let payload = random.pick(&[0, 1, 1000, 65_535, 65_536, random.clone().below(65_536)]);
    let kinds = shapes::kinds(random);
    let made = make_and_write(checker, random, kinds, Input { path_type, bytes: &path }, payload);
    for _ in 0..3 {
        let headers = shapes::headers(random, &made);
        let exact = checker.headers_length(&headers, &path);
        let size = if random.once_in(6) { random.pick(&[0, exact - 1, exact + 1, exact + 9]) } else { exact };
        checker.write_headers(&headers, &path, size);
    }
}
