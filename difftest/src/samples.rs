//! Answers worked out by hand for packets, header writing, the times of records (request 2026-01), interfaces where
//! peering is set (request 2026-03), the padding of services (request 2026-05), packets with fewer bytes than their headers
//! take (request 2026-06), and copies and turns into destinations of any size (request 2026-08), held against the Rust, or
//! the model where the Rust lacks the call or is excepted, and the library. Others for paths are the stored answers of the
//! program that executes calls, which `replay` holds against the Rust.

use scion_proto::{Answer, Ends, Headers, Host, Interface, Packet, Part, Path, WrittenPath};

use crate::check::{Checker, Input};
use crate::lines::parse_bytes;
use crate::model;
use crate::oracle::path::Oracle;
use crate::oracle::{Refused, packet, refusal, write};
use crate::random::Random;
use crate::shapes;

/// The smallest packet: factor 9, type 0, IPv4 hosts, no payload.
pub const K36: &str = "0000000111090000000000000001ff00000001100002ff0000000220d0d1d2d350515253";
/// A standard path of two hop fields.
const M1: &str = "000020000100111100000001000000000005a00bc1c2c3c40000000700000cd0e1e2e3e4";
/// `M1` turned, and `M1` with a byte after it.
const M1_TURNED: &str = "0000200000001111000000010000000700000cd0e1e2e3e4000000000005a00bc1c2c3c4";
const M1_AND_77: &str = "000020000100111100000001000000000005a00bc1c2c3c40000000700000cd0e1e2e3e477";
/// A path of two segments with times 1000 and 10 and expiry bytes 5, 3, 9 and 2.
const F22: &str = concat!(
    "00002080",
    "01001111000003e8000022220000000a",
    "000500010002a00b10203040000300030004a10c11213141",
    "000900050006a20d12223242000200070008a30e13233343"
);
/// One hop field with the least time and expiry byte, and one with the largest.
const LEAST: &str = "00001000+20";
const LARGEST: &str = "0000100000000000ffffffff00ff+10";

/// Rows that were held, and those that the Rust, or the model, does not give.
#[derive(Default)]
struct Rows {
    held: usize,
    missed: usize,
}

impl Rows {
    /// Holds a row's answer against what was found.
    fn hold<T: PartialEq + std::fmt::Debug>(&mut self, row: &str, found: T, worked: T) {
        self.held += 1;
        if found != worked {
            self.missed += 1;
            println!("ROW {row}: by the Rust or the model {found:?}, worked out {worked:?}");
        }
    }
}

/// A packet like `K36` with bytes set and a length.
fn k36(edits: &[(usize, u8)], length: usize) -> Vec<u8> {
    let mut bytes = parse_bytes(K36);
    bytes.resize(length.max(36), 0xdd);
    for (place, byte) in edits {
        bytes[*place] = *byte;
    }
    bytes.truncate(length);
    bytes
}

/// A packet of a type and path bytes behind `K36`'s hosts.
fn with_path(path_type: u8, path: &str, factor: u8, payload: u8, length: usize) -> Vec<u8> {
    let mut bytes = k36(&[(5, factor), (7, payload), (8, path_type)], 36);
    bytes.extend(parse_bytes(path));
    bytes.resize(length, 0xdd);
    bytes
}

/// Reads a packet on both sides by both readings and hands back the Rust's answer, which is the capture reading's.
fn read(checker: &mut Checker, bytes: &[u8]) -> Packet {
    checker.read_packet(bytes);
    packet::read_packet(bytes)
}

/// Holds a row for both readings: the refusing reading's answer, and the capture reading's with whether it is short.
fn both(checker: &mut Checker, rows: &mut Rows, row: &str, bytes: &[u8], refusing: Answer, capture: (Answer, u8)) {
    let rust = read(checker, bytes);
    let (packet, _) = packet::unless_cut(rust, bytes);
    rows.hold(&format!("{row}, refusing reading"), packet.answer, refusing);
    let found = model::capture(rust, bytes);
    rows.hold(&format!("{row}, capture reading"), (found.packet.answer, found.is_short), capture);
}

/// Rows of reading that say a number and a value, the same for both readings; none of them is told to be short.
fn numbers(checker: &mut Checker, rows: &mut Rows) {
    let table: Vec<(&str, Vec<u8>, u8, u8)> = vec![
        ("P-01", vec![], 1, 0),
        ("P-02", vec![0x10], 2, 1),
        ("P-02", vec![0xf0], 2, 15),
        ("P-02", [&[0x10][..], &[0; 11]].concat(), 2, 1),
        ("O", k36(&[(0, 0x10), (5, 0)], 36), 2, 1),
        ("P-03", vec![0x00], 1, 0),
        ("P-03", vec![0x0f], 1, 0),
        ("P-03", k36(&[], 11), 1, 0),
        ("P-03", k36(&[(5, 8)], 11), 1, 0),
        ("P-04", k36(&[(5, 8)], 12), 3, 8),
        ("P-04", k36(&[(5, 0)], 12), 3, 0),
        ("P-04", k36(&[], 12), 1, 0),
        ("P-08", k36(&[], 27), 1, 0),
        ("P-08", k36(&[], 28), 1, 0),
        ("P-09", k36(&[], 31), 1, 0),
        ("P-09", k36(&[], 32), 1, 0),
        ("P-09", k36(&[], 35), 1, 0),
        ("P-09", k36(&[], 36), 0, 0),
        ("P-15", k36(&[(9, 0x33)], 60), 1, 0),
        ("P-15", k36(&[(9, 0x03)], 60), 1, 0),
        ("P-15", k36(&[(9, 0x33), (5, 15)], 60), 0, 0),
        ("P-17", k36(&[(5, 10)], 40), 7, 0),
        ("P-17", with_path(1, M1, 19, 0, 76), 7, 0),
        ("P-17", with_path(1, M1, 18, 0, 72), 0, 0),
        ("P-18", with_path(1, "00002001", 10, 0, 40), 4, 0),
        ("P-18", with_path(1, "00002000", 10, 0, 40), 1, 0),
        ("P-18", with_path(1, "-", 9, 0, 36), 1, 0),
        ("P-18", k36(&[(5, 10), (7, 1)], 40), 7, 0),
        ("P-18", with_path(1, M1, 17, 0, 72), 1, 0),
        ("O", with_path(1, "00002001", 10, 9, 40), 4, 0),
        ("P-19", k36(&[(7, 1)], 36), 1, 0),
        ("P-19", k36(&[(7, 1)], 37), 0, 0),
        ("P-19", k36(&[(6, 255), (7, 255)], 36 + 65_534), 1, 0),
        ("P-19", k36(&[(6, 255), (7, 255)], 36 + 65_535), 0, 0),
        ("06-1", k36(&[], 36), 0, 0),
        ("06-1", k36(&[], 35), 1, 0),
        ("06-2", k36(&[(5, 8)], 30), 3, 8),
        ("06-2", k36(&[(0, 0x10), (5, 10)], 36), 2, 1),
        ("06-4", k36(&[], 36), 0, 0),
        ("06-5", vec![0x10], 2, 1),
        ("06, payload", k36(&[(5, 10), (7, 4)], 40), 7, 0),
        ("06, payload", k36(&[(5, 10), (7, 1)], 36), 1, 0),
    ];
    for (row, bytes, number, value) in table {
        let answer = Answer { number, value };
        both(checker, rows, row, &bytes, answer, (answer, 0));
    }
}

/// Rows of reading with fewer bytes than 4 × factor: 1 for the refusing reading; a number, and whether it is short, for the
/// capture reading.
fn short_headers(checker: &mut Checker, rows: &mut Rows) {
    let table: Vec<(&str, Vec<u8>, u8, u8)> = vec![
        ("P-21", k36(&[(5, 10)], 36), 0, 1),
        ("P-21", k36(&[(5, 255)], 36), 0, 1),
        ("P-21", with_path(1, M1, 19, 0, 72), 0, 1),
        ("P-21", with_path(1, M1, 255, 0, 72), 0, 1),
        ("P-21", with_path(1, M1, 19, 0, 73), 7, 0),
        ("P-21", k36(&[(5, 10)], 39), 7, 0),
        ("P-21", k36(&[(5, 10), (7, 1)], 36), 1, 0),
        ("P-16", with_path(2, "-", 11, 0, 40), 0, 1),
        ("06-1", k36(&[(5, 10)], 36), 0, 1),
        ("06-2", with_path(1, "00002001", 11, 0, 40), 4, 0),
        ("06-2", with_path(1, "40002000", 11, 0, 40), 5, 0),
        ("06-2", with_path(1, "02002000", 11, 0, 40), 6, 0),
        ("06-2", k36(&[(5, 10)], 39), 7, 0),
        ("06-4", k36(&[(5, 10)], 36), 0, 1),
        ("06-4", with_path(1, M1, 19, 0, 72), 0, 1),
        ("06-5", k36(&[(5, 10)], 39), 7, 0),
    ];
    for (row, bytes, number, is_short) in table {
        both(checker, rows, row, &bytes, refusal(1), (Answer { number, value: 0 }, is_short));
    }
}

/// Rows of reading that say values, by the capture reading where the packet is short.
fn values(checker: &mut Checker, rows: &mut Rows) {
    let packet = read(checker, &k36(&[(0, 0x0a), (1, 0xb1), (2, 0x23), (3, 0x45)], 36));
    rows.hold("P-05", (packet.version, packet.traffic_class, packet.flow_id), (0, 0xab, 0x12345));
    let packet = read(checker, &k36(&[(0, 0x0a), (1, 0xbf), (2, 0xff), (3, 0xff)], 36));
    rows.hold("P-05", (packet.traffic_class, packet.flow_id), (0xab, 0xfffff));
    let packet = read(checker, &k36(&[(9, 0x34), (5, 12)], 48));
    rows.hold("P-06", (packet.destination.kind, packet.source.kind), (3, 4));
    let packet = read(checker, &k36(&[], 36));
    rows.hold("P-10", (packet.destination_ia, packet.source_ia), (0x0001_ff00_0000_0110, 0x0002_ff00_0000_0220));
    rows.hold("P-10", packet.destination.bytes[..4].to_vec(), vec![0xd0, 0xd1, 0xd2, 0xd3]);
    rows.hold("P-10", packet.source.bytes[..4].to_vec(), vec![0x50, 0x51, 0x52, 0x53]);
    let packet = read(checker, &k36(&[(10, 255), (11, 255)], 36));
    rows.hold("P-23", packet.reserved, 0xffff);
    for (factor, length, path) in [(11, 44, 8), (9, 36, 0), (11, 40, 4)] {
        for path_type in [2, 255] {
            let packet = read(checker, &with_path(path_type, "-", factor, 0, length));
            rows.hold("P-16", packet.path_part.len, path);
        }
    }
    let packet = read(checker, &k36(&[(7, 1)], 38));
    rows.hold("P-19", packet.payload_part, Part { start: 36, len: 1 });
    let packet = read(checker, &with_path(1, M1, 18, 4, 76));
    rows.hold("P-20", packet.payload_part, Part { start: 72, len: 4 });
    hosts(checker, rows);
}

/// Rows on hosts.
fn hosts(checker: &mut Checker, rows: &mut Rows) {
    for kind in 0..16u8 {
        let least = 9 + kind % 4;
        let length = usize::from(least) * 4;
        let packet = read(checker, &k36(&[(9, kind << 4), (5, least)], length));
        rows.hold("P-11", packet.answer.number, 0);
        rows.hold("P-12", packet.destination.kind, kind);
        if least > 9 {
            let packet = read(checker, &k36(&[(9, kind << 4), (5, least - 1)], length));
            rows.hold("P-11", packet.answer.number, 1);
        }
    }
    for (high, low, padding) in [(0, 0, 0), (0xbe, 0xef, 0xbeef)] {
        let edits = [(9, 0x40), (28, 0), (29, 2), (30, high), (31, low)];
        let host = read(checker, &k36(&edits, 36)).destination;
        rows.hold("P-13", host, service(2, padding));
    }
    let host = read(checker, &k36(&[(9, 0x10), (5, 10)], 40)).destination;
    rows.hold("P-14", host.bytes[8..].to_vec(), vec![0; 8]);
    let path = shapes::path_of(&mut Random::new(1), [63, 17, 0], shapes::Pointers::Start);
    let parts = shapes::PacketParts { kinds: 0x01, path_type: 1, path, payload: 0 };
    let packet = read(checker, &shapes::packet_of(&mut Random::new(2), &parts));
    rows.hold("P-22", (packet.answer.number, packet.header_length_factor, packet.path_part.len), (0, 255, 980));
}

/// A service of a number and a padding.
fn service(number: u16, padding: u16) -> Host {
    Host { kind: 4, service: number, padding, ..Host::default() }
}

/// `K36`'s ends.
fn ends() -> Ends {
    let host = |bytes: [u8; 4]| {
        let mut host = Host::default();
        host.bytes[..4].copy_from_slice(&bytes);
        host
    };
    Ends {
        destination_ia: 0x0001_ff00_0000_0110,
        destination: host([0xd0, 0xd1, 0xd2, 0xd3]),
        source_ia: 0x0002_ff00_0000_0220,
        source: host([0x50, 0x51, 0x52, 0x53]),
    }
}

/// Makes headers on both sides.
fn make(checker: &mut Checker, path_type: u8, path: &[u8], payload: usize) -> Headers {
    checker.new_headers(&ends(), Input { path_type, bytes: path }, 0x11, payload, 1)
}

/// Writes headers on both sides, and hands back the expected number and bytes.
fn written(checker: &mut Checker, headers: &Headers, path: &[u8], size: usize) -> (u8, Vec<u8>) {
    checker.write_headers(headers, path, size);
    let mut dst = vec![0xee; size];
    let (answer, _) = write::write_headers(headers, path, &mut dst);
    (answer.number, dst)
}

/// Rows on what is written.
fn bytes_written(checker: &mut Checker, rows: &mut Rows) {
    let made = make(checker, 0, &[], 0);
    rows.hold("W-01", made.header_length_factor, 9);
    rows.hold("W-02", written(checker, &made, &[], 36), (0, parse_bytes(K36)));
    rows.hold("W-03", make(checker, 0, &[1, 2, 3, 4], 0).header_length_factor, 9);
    rows.hold("W-03", written(checker, &made, &[1, 2, 3, 4], 36).0, 0);
    let five = make(checker, 2, &[1, 2, 3, 4, 5], 0);
    rows.hold("W-01", five.header_length_factor, 10);
    for (size, number) in [(41, 0), (40, 9), (44, 9)] {
        rows.hold("W-14", written(checker, &five, &[1, 2, 3, 4, 5], size).0, number);
    }
    let unread = parse_bytes("00002001");
    let headers = make(checker, 1, &unread, 0);
    rows.hold("W-04", written(checker, &headers, &unread, 40).1[36..].to_vec(), unread.clone());
    let three = make(checker, 2, &[1, 2, 3], 0);
    rows.hold("W-04", (three.header_length_factor, written(checker, &three, &[1, 2, 3], 39).0), (9, 0));
    let (_, bytes) = written(checker, &three, &[1, 2, 3], 39);
    let packet = read(checker, &bytes);
    rows.hold("W-19", (packet.header_length_factor, packet.path_part.len), (9, 0));
    let mut headers = made;
    headers.destination = service(2, 0);
    rows.hold("W-06", written(checker, &headers, &[], 36).1[28..32].to_vec(), vec![0, 2, 0, 0]);
    headers.destination = Host { kind: 5, bytes: [7; 16], ..Host::default() };
    rows.hold("W-07", written(checker, &headers, &[], 40).1[28..36].to_vec(), vec![7; 8]);
}

/// Rows on refusals of writing.
fn refusals(checker: &mut Checker, rows: &mut Rows) {
    for (length, number) in [(984, 0), (987, 0), (988, 12)] {
        let path = vec![9; length];
        let headers = make(checker, 2, &path, 0);
        rows.hold("W-10", written(checker, &headers, &path, 36 + length).0, number);
    }
    let made = make(checker, 0, &[], 0);
    for (payload_length, number) in [(65_535, 0), (65_536, 11), (usize::MAX, 11)] {
        rows.hold("W-11", written(checker, &Headers { payload_length, ..made }, &[], 36).0, number);
    }
    for (header_length_factor, number) in [(0, 3), (1, 0), (8, 0), (9, 0), (255, 0), (256, 12)] {
        rows.hold("W-12", written(checker, &Headers { header_length_factor, ..made }, &[], 36).0, number);
    }
    for (version, number) in [(0, 0), (1, 0), (15, 0), (16, 10)] {
        rows.hold("W-16", written(checker, &Headers { version, ..made }, &[], 36).0, number);
    }
    let mut headers = make(checker, 2, &[0; 988], 65_536);
    headers.flow_id = 0x10_0000;
    rows.hold("W-09", written(checker, &headers, &[0; 988], 1).0, 10);
    headers.flow_id = 1;
    rows.hold("W-09", written(checker, &headers, &[0; 988], 1).0, 12);
    let zero = Headers { header_length_factor: 0, payload_length: 65_536, ..made };
    rows.hold("W-09", written(checker, &zero, &[], 35).0, 3);
    rows.hold("W-09", written(checker, &Headers { payload_length: 65_536, ..made }, &[], 35).0, 11);
    rows.hold("W-09", written(checker, &made, &[], 35).0, 9);
    rows.hold("W-09", written(checker, &made, &[], 37).0, 9);
}

/// Rows on the expiry in records: of a path that was read, and of what calls leave of it.
fn expiries(checker: &mut Checker, rows: &mut Rows) {
    let table = [("01-1", LEAST, 337_500), ("01-1", LARGEST, 4_295_053_695_000), ("01-2", F22, 1_022_500)];
    for (row, path, expiry) in table.into_iter().chain([("01-5", M1, 338_500)]) {
        let bytes = parse_bytes(path);
        let input = Input { path_type: 1, bytes: &bytes };
        let oracle = checker.read_path(input);
        rows.hold(row, oracle.record().expiry, expiry);
        left(checker, rows, (row, input), &oracle, expiry);
        let oracle = checker.read_path(Input { path_type: 2, bytes: &bytes });
        rows.hold("01-9", oracle.read_path().path, Path::default());
    }
    rows.hold("01-1", read(checker, &with_path(1, M1, 18, 0, 72)).path.expiry, 338_500);
    rows.hold("01-9", read(checker, &k36(&[], 36)).path, Path::default());
    rows.hold("01-9", read(checker, &with_path(2, M1, 18, 0, 72)).path, Path::default());
}

/// Rows on the records that an alert flag, a copy, a turn, a walk and, where there is a next hop field, a move hand back.
fn left(checker: &mut Checker, rows: &mut Rows, (row, input): (&str, Input), oracle: &Oracle, expiry: u64) {
    let size = input.bytes.len();
    let mut room = input.bytes.to_vec();
    checker.set_alert(input, oracle, 0, true, true);
    rows.hold(row, oracle.set_alert(0, true, true, &mut room).path.expiry, expiry);
    checker.copy_path(input, oracle, size);
    rows.hold(row, oracle.copy_path(&mut room).0.path.expiry, expiry);
    checker.reverse_path(input, oracle, size);
    rows.hold(row, oracle.reverse_path(&mut room).0.path.expiry, expiry);
    checker.walk(input, oracle, usize::MAX);
    rows.hold(row, model::walk(oracle, &mut input.bytes.to_vec(), usize::MAX).path.expiry, expiry);
    checker.single_move(input, oracle);
    let moved = model::single_move(oracle, &mut input.bytes.to_vec());
    rows.hold(row, moved.path.expiry, if moved.answer.number == 0 { expiry } else { 0 });
}

/// Rows on the times of a record made by hand: expiry, now, number, time left.
fn times(checker: &mut Checker, rows: &mut Rows) {
    for (expiry, now, number, ms) in [
        (4_295_053_695_000, 0, 0, 4_295_053_695_000),
        (4_295_053_695_001, 0, 10, 0),
        (u64::MAX, 0, 10, 0),
        (338_500, 9_000_000_000_001, 10, 0),
        (0, 9_000_000_000_000, 0, -9_000_000_000_000),
        (338_500, 338_501, 0, -1),
    ] {
        let record = Path { current_hop_field: 1, segment_lengths: [2, 0, 0], expiry, ..Path::default() };
        checker.record_expiry(record);
        rows.hold("01-8", model::record_expiry(&record), expiry);
        checker.record_time_left(record, now);
        let left = model::record_time_left(&record, now);
        let given = if number == 0 { record } else { Path::default() };
        rows.hold("01-7", (left.answer.number, left.path, left.ms), (number, given, ms));
    }
}

/// A path with these flags in its info fields.
fn with_flags(path: &str, flags: &[u8]) -> Vec<u8> {
    let mut bytes = parse_bytes(path);
    for (k, flags) in flags.iter().enumerate() {
        bytes[4 + 8 * k] = *flags;
    }
    bytes
}

/// Rows on interfaces: a path, the flags of its info fields, how many interfaces there are, the first ones' hop fields.
fn interfaces(checker: &mut Checker, rows: &mut Rows) {
    let table: [(&str, &str, &[u8], usize, &[usize]); 14] = [
        ("03-1", "00001040+40", &[2, 2], 2, &[0, 1]),
        ("03-1", "00001080+52", &[2, 2], 4, &[0, 1, 1, 2]),
        ("03-1", "00002040+52", &[2, 2], 4, &[0, 1, 1, 2]),
        ("03-1", "000030c0+88", &[2, 2], 10, &[0, 1, 1, 2, 2, 3, 3, 4, 4, 5]),
        ("03-1", "0003ffc0+1528", &[2, 2], 250, &[0, 1, 1, 2]),
        ("03-2", F22, &[2, 3], 6, &[0, 1, 1, 2, 2, 3]),
        ("03-3", F22, &[2, 0], 4, &[0, 1, 2, 3]),
        ("03-3", F22, &[1, 3], 4, &[0, 1, 2, 3]),
        ("03-3", "00002000+32", &[2], 2, &[0, 1]),
        ("03-3", "00001000+20", &[3], 0, &[]),
        ("03-3", "00002082+96", &[2, 2, 2], 6, &[0, 1, 2, 3, 4, 5]),
        ("03-3", "00001041+60", &[3, 3, 3], 0, &[]),
        ("03-4", F22, &[0, 1], 4, &[0, 1, 2, 3]),
        ("03-4", F22, &[1, 0], 4, &[0, 1, 2, 3]),
    ];
    for (row, path, flags, count, hop_fields) in table {
        let bytes = with_flags(path, flags);
        let input = Input { path_type: 1, bytes: &bytes };
        let oracle = checker.read_path(input);
        checker.interfaces_count(input, &oracle);
        rows.hold(row, oracle.interfaces_count().0.count, count);
        for index in (0..count + 2).chain([usize::MAX]) {
            checker.interface(input, &oracle, index);
        }
        let found = |index| oracle.interface(index).0;
        rows.hold(row, (0..hop_fields.len()).map(|index| found(index).hop_field).collect(), hop_fields.to_vec());
        for index in [count, count + 1, usize::MAX] {
            rows.hold("03-5", found(index), Interface::refused(refusal(8)));
        }
    }
    let bytes = with_flags(F22, &[2, 3]);
    let oracle = Oracle::new(1, &bytes);
    rows.hold("03-2", [0, 1, 2, 3, 4, 5].map(|index| oracle.interface(index).0.id), [1, 4, 3, 5, 6, 7]);
}

/// Rows on copies and turns into a destination of bytes EE: type, path, size, number, the front of a copy and of a turn.
fn fronts(checker: &mut Checker, rows: &mut Rows) {
    for (row, path_type, path, size, number, copied, turned) in [
        ("08-1", 1, M1, 37, 0, M1, M1_TURNED),
        ("08-1", 1, M1, 38, 0, M1, M1_TURNED),
        ("08-1", 1, M1, 2304, 0, M1, M1_TURNED),
        ("08-1", 2, "010203", 4, 0, "010203", "010203"),
        ("08-1", 7, "010203", 5, 0, "010203", "010203"),
        ("08-1", 255, M1, 2304, 0, M1, M1),
        ("08-2", 1, M1, 35, 9, "-", "-"),
        ("08-2", 1, M1, 0, 9, "-", "-"),
        ("08-2", 7, "010203", 2, 9, "-", "-"),
        ("08-2", 7, "010203", 0, 9, "-", "-"),
        ("08-2", 1, "00002001", 2304, 4, "-", "-"),
        ("08-4", 1, M1, 36, 0, M1, M1_TURNED),
        ("08-4", 7, "010203", 3, 0, "010203", "010203"),
        ("08-5", 0, "-", 0, 0, "-", "-"),
        ("08-5", 0, "010203", 1, 0, "-", "-"),
        ("08-5", 0, M1, 2304, 0, "-", "-"),
        ("08-5", 7, "-", 0, 0, "-", "-"),
        ("08-5", 7, "-", 1, 0, "-", "-"),
        ("08-7", 1, M1_AND_77, 36, 0, M1, M1_TURNED),
        ("08-7", 1, M1_AND_77, 37, 0, M1, M1_TURNED),
        ("08-7", 1, M1_AND_77, 2304, 0, M1, M1_TURNED),
    ] {
        let bytes = parse_bytes(path);
        let input = Input { path_type, bytes: &bytes };
        let oracle = checker.read_path(input);
        let mut hold = |(written, _): (WrittenPath, _), dst: Vec<u8>, front: &str| {
            let mut worked = parse_bytes(front);
            let length = worked.len();
            worked.resize(size, 0xee);
            rows.hold(row, (written.answer.number, written.length, dst), (number, length, worked));
        };
        let mut dst = vec![0xee; size];
        checker.copy_path(input, &oracle, size);
        hold(oracle.copy_path(&mut dst), dst, copied);
        let mut dst = vec![0xee; size];
        checker.reverse_path(input, &oracle, size);
        hold(oracle.reverse_path(&mut dst), dst, turned);
    }
}

/// `K36` with these kinds and these bytes of hosts from a place on.
fn with_hosts(kinds: u8, place: usize, hosts: &str) -> Vec<u8> {
    let mut bytes = k36(&[(9, kinds)], 36);
    let hosts = parse_bytes(hosts);
    bytes[place..place + hosts.len()].copy_from_slice(&hosts);
    bytes
}

/// Rows on the paddings of services: read, written, and zero in new headers.
fn paddings(checker: &mut Checker, rows: &mut Rows) {
    let plain = ends();
    let (to, from) = (with_hosts(0x40, 28, "0002beef"), with_hosts(0x04, 32, "80020001"));
    let packet = read(checker, &to);
    rows.hold("05-1", (packet.destination, packet.source), (service(2, 0xbeef), plain.source));
    let packet = read(checker, &from);
    rows.hold("05-1", (packet.destination, packet.source), (plain.destination, service(0x8002, 1)));
    rows.hold("05-1", read(checker, &to[..35]), Packet::refused(refusal(1)));
    let mut headers = make(checker, 0, &[], 0);
    headers.destination = service(2, 0xbeef);
    rows.hold("05-2", written(checker, &headers, &[], 36), (0, to));
    headers.destination = Host { padding: 0xffff, ..plain.destination };
    let (_, bytes) = written(checker, &headers, &[], 36);
    rows.hold("05-2", bytes.clone(), parse_bytes(K36));
    rows.hold("05-2", read(checker, &bytes).destination, plain.destination);
    for padding in [0, 0xbeef] {
        let ends = Ends { destination: service(2, padding), source: Host { padding: 0xffff, ..plain.source }, ..plain };
        let made = checker.new_headers(&ends, Input { path_type: 0, bytes: &[] }, 0x11, 0, 1);
        rows.hold("05-2", (made.destination, made.source), (service(2, 0), plain.source));
        checker.write_new_headers(&ends, &made, &[], 36);
        let mut dst = vec![0xee; 36];
        write::write_new_headers(&ends, &made, &[], &mut dst);
        rows.hold("05-2", dst, with_hosts(0x40, 28, "00020000"));
    }
    written_again(checker, rows);
}

/// Rows on packets that are written again as they were read: any values, services, opaque hosts and paths, short headers.
fn written_again(checker: &mut Checker, rows: &mut Rows) {
    let values = [(0, 0x0a), (1, 0xbf), (2, 0xff), (3, 0xfe), (4, 0x99), (10, 0xab), (11, 0xcd)];
    for (bytes, length) in [
        (k36(&values, 36), 36),
        (with_hosts(0x40, 28, "0002beef"), 36),
        (with_hosts(0x04, 32, "80020001"), 36),
        (with_hosts(0x44, 28, "0002beef80020001"), 36),
        (k36(&[(9, 0x51), (5, 11), (7, 2)], 47), 44),
        (k36(&[(9, 0x40), (5, 10)], 36), 36),
        (k36(&[(9, 0x04), (5, 255)], 36), 36),
        (with_path(1, M1, 18, 4, 76), 72),
        (with_path(1, M1, 19, 0, 72), 72),
        (with_path(2, "010203040506", 11, 0, 42), 42),
        (with_path(255, "01020304", 10, 3, 44), 40),
    ] {
        let packet = read(checker, &bytes);
        let again = written(checker, &packet.headers(), packet.path_part.of(&bytes), length);
        rows.hold("05-4", (packet.payload_part.start, again), (length, (0, bytes[..length].to_vec())));
    }
}

/// Holds every row; whether the Rust, or the model, gives them all.
pub fn run(checker: &mut Checker) -> bool {
    let mut rows = Rows::default();
    numbers(checker, &mut rows);
    short_headers(checker, &mut rows);
    values(checker, &mut rows);
    bytes_written(checker, &mut rows);
    refusals(checker, &mut rows);
    expiries(checker, &mut rows);
    times(checker, &mut rows);
    interfaces(checker, &mut rows);
    fronts(checker, &mut rows);
    paddings(checker, &mut rows);
    println!("  worked answers: {} held, {} that the Rust or the model does not give", rows.held, rows.missed);
    rows.missed == 0
}
