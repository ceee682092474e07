//! A stored list of calls and the Rust's answers, to be replayed by another program. It comes out the same each time.

use std::fs;
use std::path::Path;

use scion_proto::{Ends, Host};

use crate::lines;
use crate::model;
use crate::random::Random;
use crate::samples::K36;
use crate::shapes::{self, Lengths, PacketParts, Pointers};
use crate::tally::hex;

/// The most bytes of a file.
const MOST: usize = 60_000;

/// Lines for one subject, with comments between.
struct Subject {
    name: &'static str,
    lines: Vec<String>,
}

impl Subject {
    fn new(name: &'static str) -> Self {
        Self { name, lines: Vec::new() }
    }

    /// A comment before the calls that follow.
    fn note(&mut self, words: &str) {
        self.lines.push(format!("# {words}"));
    }

    /// A call with its answer.
    fn call(&mut self, call: String) {
        let (answer, _) = lines::answer(&call).unwrap_or_else(|| panic!("the Rust can't be asked: {call}"));
        self.lines.push(format!("{call} =>{answer}"));
    }

    /// A packet by both readings.
    fn packet(&mut self, bytes: &[u8]) {
        for name in ["packet", "capture"] {
            self.call(format!("{name} {}", word(bytes)));
        }
    }

    /// The record of a packet's path, by both readings.
    fn packet_record(&mut self, bytes: &[u8]) {
        for name in ["recordpacket", "recordcapture"] {
            self.call(format!("{name} {}", word(bytes)));
        }
    }
}

/// Bytes as a word, many zero bytes at the end as a count.
fn word(bytes: &[u8]) -> String {
    let zeros = bytes.iter().rev().take_while(|byte| **byte == 0).count();
    if zeros < 8 || zeros == bytes.len() {
        return hex(bytes);
    }
    format!("{}+{zeros}", hex(&bytes[..bytes.len() - zeros]))
}

/// A sample path: fields told apart by their numbers, direction and peering as given in two bits each.
fn sample(lengths: Lengths, bits: usize, hop_pointer: usize, reserved: usize) -> Vec<u8> {
    let shape = shapes::shape(lengths);
    let mut bytes = vec![0; shape.bytes()];
    bytes[..4].copy_from_slice(&shapes::meta(shape.segment_of(hop_pointer), hop_pointer, reserved, lengths));
    for k in 0..shape.info_fields {
        let k8 = k as u8 + 1;
        let info = [(bits >> (2 * k)) as u8 & 3, 0, 0x11 * k8, 0x11 * k8, 0, 0, k8, 1];
        bytes[shape.info_at(k)..][..8].copy_from_slice(&info);
    }
    for h in 0..shape.hop_fields {
        let j = h as u8;
        let id = |number: usize| (number as u16).to_be_bytes();
        let ([a, b], [c, d]) = (id(2 * h + 1), id(2 * h + 2));
        let code = [0xa0, 0x0b, 0x10, 0x20, 0x30, 0x40].map(|byte: u8| byte.wrapping_add(j));
        bytes[shape.hop_at(h)..][..6].copy_from_slice(&[0, 7 * j % 5, a, b, c, d]);
        bytes[shape.hop_at(h) + 6..][..6].copy_from_slice(&code);
    }
    bytes
}

/// Meta headers: every answer, every first byte, headers written, interfaces, offsets.
fn meta(random: &mut Random) -> Subject {
    let mut subject = Subject::new("meta");
    subject.note("Meta headers under 4 bytes, at each border, and any.");
    for length in 0..4 {
        subject.call(format!("meta {}", hex(&[0xc0, 0xff, 0x20][..length])));
    }
    for first in 0..=255u8 {
        for rest in ["002000", "002040", "001041", "03f040"] {
            if first % 64 < 4 || first % 64 == 63 {
                subject.call(format!("meta {first:02x}{rest}"));
            }
        }
    }
    for _ in 0..150 {
        let number = random.next() as u32;
        let lengths = shapes::lengths(random);
        let near = u32::from_be_bytes(shapes::meta(random.below(4), random.below(8), random.below(64), lengths));
        subject.call(format!("meta {number:08x}"));
        subject.call(format!("meta {near:08x}"));
    }
    subject.note("The number for every first byte.");
    for rest in ["002000", "002040", "001041", "020820", "03f040", "000000", "002001"] {
        subject.call(format!("firsts 00{rest}"));
    }
    written_meta(random, &mut subject);
    placed(random, &mut subject);
    subject
}

/// Headers written, too wide ones and wrong destinations among them.
fn written_meta(random: &mut Random, subject: &mut Subject) {
    subject.note("Headers written: 10 where a number is too wide, 9 where the destination is not of 4 bytes.");
    for place in 0..6 {
        for number in [0, 1, 3, 4, 63, 64, 255] {
            let mut numbers = [1, 1, 9, 1, 1, 1];
            numbers[place] = number;
            let words: Vec<String> = numbers.iter().map(u8::to_string).collect();
            subject.call(format!("encode {} eeeeeeee", words.join(" ")));
        }
    }
    for dst in ["-", "ee", "eeeeee", "eeeeeeeeee", "eeeeeeeeeeeeeeee"] {
        subject.call(format!("encode 1 1 9 1 1 1 {dst}"));
        subject.call(format!("encode 4 1 9 1 1 1 {dst}"));
    }
    subject.note("What headers count.");
    for _ in 0..60 {
        let lengths = shapes::lengths(random);
        let hop = random.below(lengths.iter().sum::<usize>().min(64));
        let [a, b, c] = lengths;
        subject.call(format!(
            "counts {} {hop} {} {a} {b} {c}",
            shapes::shape(lengths).segment_of(hop),
            random.below(64)
        ));
    }
}

/// Interfaces and offsets of lengths.
fn placed(random: &mut Random, subject: &mut Subject) {
    subject.note("The hop field of each interface, and beyond the count 8, where document 01 decides.");
    for [a, b, c] in [[1, 0, 0], [3, 0, 0], [2, 2, 0], [1, 2, 0], [3, 1, 3], [1, 1, 1], [3, 2, 2]] {
        for index in 0..2 * (a + b + c) {
            subject.call(format!("ifhop {a} {b} {c} {index}"));
        }
    }
    for _ in 0..60 {
        let [a, b, c] = shapes::lengths(random);
        let index = random.below(2 * (a + b + c) + 2);
        subject.call(format!("ifhop {a} {b} {c} {index}"));
        subject.call(format!("ifhop {a} {b} {c} {}", random.pick(&crate::paths::FAR)));
    }
    subject.note("Where fields start, and 8 where there is none, where document 01 decides.");
    for _ in 0..60 {
        let [a, b, c] = shapes::lengths(random);
        subject.call(format!("offset {a} {b} {c} {}", random.below(5)));
        subject.call(format!("offset {a} {b} {c} {}", random.below(a + b + c + 2)));
    }
    subject.note(
        "Indexes beside the first at which an offset does not fit 64 bits, in the Rust a panic or a wrapped one.",
    );
    for index in [(1u64 << 61) - 1, 1 << 61].into_iter().chain(1_537_228_672_809_129_298..=1_537_228_672_809_129_301) {
        subject.call(format!("offset 1 0 0 {index}"));
        subject.call(format!("offset 1 1 1 {index}"));
    }
    for index in crate::paths::FAR {
        subject.call(format!("offset 1 0 0 {index}"));
    }
    subject.note("Lengths that no path has: what they count shows in where there is nothing any more.");
    for [a, b, c] in [[0, 0, 0], [0, 0, 1], [0, 5, 0], [2, 0, 1], [3, 0, 2]] {
        for index in 0..=10 {
            subject.call(format!("ifhop {a} {b} {c} {index}"));
            subject.call(format!("offset {a} {b} {c} {index}"));
        }
    }
}

/// Fields, flags, times, bounded numbers and addresses.
fn fields(random: &mut Random) -> Subject {
    let mut subject = Subject::new("fields");
    subject.note("Info fields and hop fields; 9 where the part is of another size, at which the Rust panics.");
    for length in [0, 1, 7, 8, 9, 11, 12, 13] {
        subject.call(format!("info {}", hex(&random.bytes(length))));
        subject.call(format!("hop {}", hex(&random.bytes(length))));
    }
    for _ in 0..80 {
        subject.call(format!("info {}", hex(&random.bytes(8))));
        subject.call(format!("hop {}", hex(&random.bytes(12))));
        subject.call(format!("infodir {} {}", hex(&random.bytes(8)), random.below(2)));
        subject.call(format!("hopflags {} {} {}", hex(&random.bytes(12)), random.below(2), random.below(2)));
        subject.call(format!("sides {} {}", hex(&random.bytes(8)), hex(&random.bytes(12))));
    }
    subject.note("Every flag byte.");
    for on in 0..2 {
        for name in ["infobits", "infodirs", "hopbits"] {
            subject.call(format!("{name} {on}"));
        }
        subject.call(format!("hopalerts {on} 0"));
        subject.call(format!("hopalerts {on} 1"));
    }
    subject.note("Times.");
    for time in [0, 1, 1000, 1_700_000_000, u32::MAX - 1, u32::MAX] {
        for byte in [0, 1, 63, 254, 255] {
            subject.call(format!("expiry {time} {byte}"));
        }
    }
    values(random, &mut subject);
    subject
}

/// Numbers on the wire, bounded numbers, networks, services and hosts.
fn values(random: &mut Random, subject: &mut Subject) {
    subject.note("Numbers read and written: 1 and 9 where the Rust panics for want of room.");
    for width in [2, 4, 8] {
        for length in 0..12 {
            let bytes = hex(&random.bytes(length));
            let at = random.below(length + 2);
            subject.call(format!("get {width} {bytes} {at}"));
            let most = if width == 8 { u64::MAX } else { (1 << (8 * width)) - 1 };
            subject.call(format!("put {width} {bytes} {at} {}", random.next() & most));
        }
    }
    subject.note("Bounded numbers.");
    for (bits, most) in [(2, 3), (4, 15), (6, 63), (20, 1_048_575)] {
        for number in [0, 1, most - 1, most, most + 1, 255] {
            subject.call(format!("bounded {bits} {number}"));
        }
    }
    subject.note("Network numbers, services, hosts.");
    for _ in 0..20 {
        subject.call(format!("isdasn {}", random.next()));
        subject.call(format!("service {}", random.next() as u16));
    }
    for number in [0, 1, (1 << 48) - 1, 1 << 48, (1 << 48) + 1, u64::MAX] {
        subject.call(format!("isdasn {number}"));
    }
    for isd in [0, 1, 65_535] {
        for asn in [0, 1, 0xff00_0000_0110, (1 << 48) - 1, 1 << 48, u64::MAX] {
            subject.call(format!("newisdasn {isd} {asn}"));
        }
    }
    for number in [0, 1, 2, 16, 0x7fff, 0x8000, 0x8001, 0xffff] {
        subject.call(format!("service {number}"));
    }
    for byte in 0..8 {
        subject.call(format!("hosttype {byte}"));
        subject.call(format!("hostkind {byte}"));
    }
    for kind in 0..16 {
        subject.call(format!("hostlength {kind}"));
    }
    subject.note("Constants.");
    for index in 0..=14 {
        subject.call(format!("constant {index}"));
    }
}

/// Samples of every small shape, and of the borders.
fn samples(random: &mut Random) -> Vec<Vec<u8>> {
    let mut all = Vec::new();
    for lengths in
        [[1, 0, 0], [2, 0, 0], [3, 0, 0], [1, 1, 0], [2, 1, 0], [1, 2, 0], [2, 2, 0], [1, 1, 1], [1, 2, 1], [2, 1, 2]]
    {
        let count: usize = lengths.iter().sum();
        let hop = random.below(count);
        let bits = random.below(64) & if lengths[2] > 0 { 0b01_0101 } else { 0b1111 };
        let reserved = random.pick(&[0, 0, 63, 42]);
        all.push(sample(lengths, bits, hop, reserved));
    }
    all
}

/// Reading, views, times, interfaces, alert flags, copies and turns.
fn paths(random: &mut Random) -> Subject {
    let mut subject = Subject::new("paths");
    subject.note("Reading: whole, one byte short, with bytes after it; every answer.");
    for bytes in samples(random) {
        let longer = [&bytes[..], &[0xee, 0xee]].concat();
        for length in [bytes.len() - 1, bytes.len(), bytes.len() + 2] {
            subject.call(format!("path 1 {}", word(&longer[..length])));
            subject.call(format!("raw 1 {}", word(&longer[..length])));
        }
    }
    for [a, b, c] in shapes::BORDERS {
        let bytes = sample_zeros([a, b, c]);
        subject.call(format!("path 1 {}", word(&bytes)));
        subject.call(format!("path 1 {}", word(&bytes[..bytes.len() - 1])));
        subject.call(format!("ifcount 1 {}", word(&bytes)));
    }
    for path_type in [0, 1, 2, 3, 4, 5, 254, 255] {
        for bytes in ["-", "00", "010203", "00001000+20", "00002001+44", "40002000+32", "02002000+32"] {
            subject.call(format!("path {path_type} {bytes}"));
            subject.call(format!("raw {path_type} {bytes}"));
        }
    }
    viewed(random, &mut subject);
    subject
}

/// A path of lengths, zero but for its meta header.
fn sample_zeros(lengths: Lengths) -> Vec<u8> {
    let mut bytes = vec![0; shapes::shape(lengths).bytes()];
    bytes[..4].copy_from_slice(&shapes::meta(0, 0, 0, lengths));
    bytes
}

/// Views and the rest, on each sample with every index.
fn viewed(random: &mut Random, subject: &mut Subject) {
    subject.note("Views, times and interfaces with every index, and with ones that are not there.");
    for bytes in samples(random) {
        let count: usize = sample_hop_fields(&bytes);
        let text = word(&bytes);
        for index in [0, 1, 2, 3, 1 << 32, usize::MAX] {
            for name in ["locinfo", "segment", "segexp"] {
                subject.call(format!("{name} 1 {text} {index}"));
            }
        }
        for index in (0..=count).chain([1 << 63, usize::MAX]) {
            subject.call(format!("lochop 1 {text} {index}"));
            subject.call(format!("iface 1 {text} {index}"));
        }
        subject.call(format!("pathexp 1 {text}"));
        for now in [0, 1, 337_500, 9_000_000_000_000, 9_000_000_000_001, u64::MAX] {
            subject.call(format!("left 1 {text} {now}"));
        }
    }
    interfaces(subject);
    changed(random, subject);
    subject.note("Other types get 8 straight after reading; unread paths get the reading's number.");
    for (path_type, bytes) in
        [(0, "-"), (2, "00001000+20"), (255, "-"), (1, "00002001+44"), (1, "40002000+32"), (1, "000020")]
    {
        for call in ["locinfo", "lochop", "segment", "segexp", "iface", "walk"] {
            subject.call(format!("{call} {path_type} {bytes} {}", usize::MAX));
        }
        subject.call(format!("left {path_type} {bytes} {}", u64::MAX));
        for call in ["pathexp", "ifcount", "move"] {
            subject.call(format!("{call} {path_type} {bytes}"));
        }
        subject.call(format!("alert {path_type} {bytes} 9 1 1"));
        subject.call(format!("copy {path_type} {bytes} eeee"));
        subject.call(format!("turn {path_type} {bytes} eeee"));
    }
}

/// Interfaces of peering paths, by request 2026-03, and of other paths that have peering set.
fn interfaces(subject: &mut Subject) {
    subject.note("Interfaces of peering paths, by request 2026-03's text: every index, and ones beyond the count.");
    for (lengths, bits) in [
        ([1, 1, 0], 0b10_11),
        ([1, 2, 0], 0b11_10),
        ([2, 2, 0], 0b10_10),
        ([2, 2, 0], 0b10_11),
        ([2, 2, 0], 0b11_10),
        ([2, 2, 0], 0b11_11),
    ] {
        every_interface(subject, &sample(lengths, bits, 0, 0));
    }
    let mut longest = sample_zeros([63, 63, 0]);
    for at in [4, 12] {
        longest[at] = 2;
    }
    subject.call(format!("ifcount 1 {}", word(&longest)));
    for index in [0, 124, 125, 249, 250, usize::MAX] {
        subject.call(format!("iface 1 {} {index}", word(&longest)));
    }
    subject.note("Interfaces with peering on one of two segments, on a single one, and on all of three: the Rust's.");
    for (lengths, bits) in [
        ([2, 2, 0], 0b01_10),
        ([2, 2, 0], 0b10_01),
        ([2, 0, 0], 0b11),
        ([2, 2, 2], 0b10_11_10),
        ([1, 1, 1], 0b11_11_11),
    ] {
        every_interface(subject, &sample(lengths, bits, 0, 0));
    }
}

/// How many interfaces a sample has, and each of them; the indexes go beyond the count.
fn every_interface(subject: &mut Subject, bytes: &[u8]) {
    let text = word(bytes);
    subject.call(format!("ifcount 1 {text}"));
    for index in (0..=2 * sample_hop_fields(bytes)).chain([1 << 63, usize::MAX]) {
        subject.call(format!("iface 1 {text} {index}"));
    }
}

/// How many hop fields a sample has.
fn sample_hop_fields(bytes: &[u8]) -> usize {
    let word = u32::from_be_bytes([bytes[0], bytes[1], bytes[2], bytes[3]]) as usize;
    (word >> 12 & 63) + (word >> 6 & 63) + (word & 63)
}

/// Alert flags, copies and turns.
fn changed(random: &mut Random, subject: &mut Subject) {
    subject.note(
        "Alert flags, copies and turns: the path alone, at the front of a longer destination; a shorter one gets 9.",
    );
    for bytes in samples(random) {
        let count: usize = sample_hop_fields(&bytes);
        let longer = word(&[&bytes[..], &[0x77]].concat());
        for (flag, on) in [(0, 0), (0, 1), (1, 0), (1, 1)] {
            subject.call(format!("alert 1 {longer} {} {flag} {on}", random.below(count)));
        }
        subject.call(format!("alert 1 {longer} {count} 1 1"));
        for size in [bytes.len(), bytes.len() - 1, bytes.len() + 1, bytes.len() + 2, 0] {
            let dst = word(&vec![0xee; size]);
            subject.call(format!("copy 1 {longer} {dst}"));
            subject.call(format!("turn 1 {longer} {dst}"));
        }
    }
    for path_type in [0, 2, 7, 255] {
        for (bytes, size) in [("010203", 0), ("010203", 2), ("010203", 3), ("010203", 4), ("010203", 5), ("-", 1)] {
            let dst = word(&vec![0xee; size]);
            subject.call(format!("copy {path_type} {bytes} {dst}"));
            subject.call(format!("turn {path_type} {bytes} {dst}"));
        }
    }
    subject.note("Into the fixed buffer that a radio driver lends.");
    let bytes = word(&[&sample([2, 0, 0], 1, 1, 0)[..], &[0x77]].concat());
    for path_type in [0, 1, 2, 7, 255] {
        subject.call(format!("copy {path_type} {bytes} {}", driver_buffer()));
        subject.call(format!("turn {path_type} {bytes} {}", driver_buffer()));
    }
}

/// A radio driver's buffer as a word: bytes that differ from zero up to behind a small path, then zeros.
fn driver_buffer() -> String {
    format!("{}+{}", "ee".repeat(64), shapes::DRIVER_BUFFER - 64)
}

/// Moves and walks: by document 01, not by the Rust, which has none.
fn moves() -> Subject {
    let mut subject = Subject::new("moves");
    subject.note("Moves and walks, by document 01's text: the Rust has none.");
    for lengths in [[1, 0, 0], [2, 0, 0], [3, 0, 0], [1, 1, 0], [2, 1, 0], [3, 3, 0], [1, 1, 1], [2, 2, 2]] {
        let shape = shapes::shape(lengths);
        for bits in 0..1 << (2 * shape.info_fields) {
            if lengths[2] > 0 && bits % 7 != 0 {
                continue;
            }
            let hop = bits % shape.hop_fields;
            let text = word(&sample(lengths, bits, hop, bits & 63));
            subject.call(format!("move 1 {text}"));
            subject.call(format!("walk 1 {text} {}", [0, 1, 2, usize::MAX][bits % 4]));
        }
    }
    subject.note("At the last hop field a single move gets 15; 64 hop fields walk 63 moves, 65 get 13.");
    for lengths in [[1, 0, 0], [2, 0, 0], [3, 2, 0], [1, 1, 1]] {
        let last = lengths.iter().sum::<usize>() - 1;
        let text = word(&sample(lengths, 0, last, 0));
        subject.call(format!("move 1 {text}"));
        subject.call(format!("walk 1 {text} 5"));
    }
    for lengths in [[32, 32, 0], [63, 1, 0], [63, 2, 0], [32, 32, 1], [63, 63, 63]] {
        let text = word(&sample_zeros(lengths));
        subject.call(format!("move 1 {text}"));
        subject.call(format!("walk 1 {text} {}", usize::MAX));
    }
    subject
}

/// Packets of every answer.
fn packets(random: &mut Random) -> Subject {
    let mut subject = Subject::new("packets");
    let base = lines::parse_bytes(K36);
    subject.note("A smallest packet, cut at every byte.");
    for length in 0..=36 {
        subject.packet(&base[..length]);
    }
    subject.note("Every version, factor and payload length beside the border.");
    for (place, values) in
        [(0, [0x10, 0xf0, 0x0f, 0x20]), (5, [0, 8, 10, 255]), (7, [1, 2, 255, 0]), (8, [1, 2, 255, 4])]
    {
        for value in values {
            for more in [0, 1, 2, 4] {
                let mut bytes = [&base[..], &vec![0xdd; more]].concat();
                bytes[place] = value;
                subject.packet(&bytes);
            }
        }
    }
    subject.note("Every pair of host kinds, with an empty, a standard and an opaque path in turn.");
    for kinds in 0..=255u8 {
        let path_type = kinds % 3;
        let path = path_of_type(path_type);
        let bytes = shapes::packet_of(random, &PacketParts { kinds, path_type, path, payload: 1 });
        subject.packet(&bytes);
    }
    subject.note("Any packets, and damaged ones.");
    for _ in 0..120 {
        let lengths = random.pick(&[[1, 0, 0], [2, 0, 0], [1, 1, 0]]);
        let path = shapes::path_of(random, lengths, Pointers::Anywhere);
        let parts = PacketParts { kinds: random.pick(&[0, 0x30, 0x04, 0x51]), path_type: 1, path, payload: 2 };
        let mut bytes = shapes::packet_of(random, &parts);
        if random.flip() {
            shapes::damage(random, &mut bytes, 60);
        }
        subject.packet(&bytes);
    }
    subject
}

/// Common and address headers alone.
fn headers(random: &mut Random) -> Subject {
    let mut subject = Subject::new("headers");
    subject.note("Common headers read: cut at every byte, every first byte, factors round 9, and any.");
    let base = lines::parse_bytes("0ab123451109ffff0134abcd");
    for length in 0..=12 {
        subject.call(format!("common {}", hex(&base[..length])));
    }
    for (place, byte) in (0..=255).step_by(17).map(|byte| (0, byte)).chain((0..=12).map(|byte| (5, byte))) {
        let mut bytes = base.clone();
        bytes[place] = byte;
        subject.call(format!("common {}", hex(&bytes)));
    }
    for _ in 0..80 {
        let mut bytes = random.bytes(12);
        bytes[0] &= 0x0f;
        subject.call(format!("common {}", hex(&bytes)));
    }
    subject.note("Common headers written: 10, 3, 9 in this order; factor and payload length can't be too wide here.");
    for (flow, factor, payload, size) in faults() {
        if factor > 255 || payload > 65_535 {
            continue;
        }
        let dst = word(&vec![0xee; size - 32]);
        subject.call(format!("putcommon 15 171 {flow} 17 {factor} {payload} 255 15 4 65535 {dst}"));
    }
    for (version, destination, source) in [(15, 15, 15), (16, 0, 0), (0, 16, 0), (0, 0, 16), (255, 255, 255)] {
        subject.call(format!("putcommon {version} 1 2 3 9 4 5 {destination} {source} 6 {}", word(&[0xee; 12])));
    }
    addresses(random, &mut subject);
    named_addresses(random, &mut subject);
    subject
}

/// Address headers of every pair of kinds, cut and written.
fn addresses(random: &mut Random, subject: &mut Subject) {
    subject.note("Address headers of every pair of kinds: whole, or one byte short; written, or into another size.");
    for kinds in 0..=255u8 {
        let (destination, source) = (kinds >> 4, kinds & 15);
        let length = 16 + hosts_length(kinds);
        let cut = usize::from(random.once_in(4));
        subject.call(format!("address {destination} {source} {}", hex(&random.bytes(length - cut))));
        if kinds % 3 == 0 {
            let size = length + random.pick(&[0, 0, 0, 1]) - random.pick(&[0, 0, 0, 1]);
            subject.call(format!("putaddress {} {}", any_ends_words(random, kinds), word(&vec![0xee; size])));
        }
    }
    for length in 0..=24 {
        subject.call(format!("address 0 0 {}", hex(&random.bytes(length))));
    }
}

/// Addresses whose hosts have names: another network or host set, and headers made of two.
fn named_addresses(random: &mut Random, subject: &mut Subject) {
    subject.note(
        "Addresses made and changed, every kind of host that has a name into every other; headers of two addresses.",
    );
    for kinds in [0x00, 0x03, 0x04, 0x30, 0x33, 0x34, 0x40, 0x43, 0x44] {
        for _ in 0..2 {
            let ends = shapes::ends(random, kinds >> 4, kinds & 15);
            let (one, other) = (host_words(&ends.destination), host_words(&ends.source));
            subject.call(format!("endhost {} {one} {} {other}", ends.destination_ia, ends.source_ia));
        }
        let length = 16 + hosts_length(kinds);
        for size in [length, length, length - 1, length + 1, 0] {
            let ends = shapes::ends(random, kinds >> 4, kinds & 15);
            let (one, other) = (host_words(&ends.destination), host_words(&ends.source));
            let networks = format!("{} {}", ends.destination_ia, ends.source_ia);
            subject.call(format!("newaddr {networks} {one} {other} {}", word(&vec![0xee; size])));
        }
    }
}

/// Runs of hop fields, read from both ends.
fn runs(random: &mut Random) -> Subject {
    let mut subject = Subject::new("runs");
    let field = |k: usize| [16 * k as u8, k as u8, 0, k as u8, 1, k as u8, 0xa0, 0xb0, 0xc0, 0xd0, 0xe0, k as u8];
    subject.note("Runs of 0 to 4 hop fields read in every order, with one read too many.");
    for count in 0..=4 {
        let run = hex(&(1..=count).flat_map(field).collect::<Vec<u8>>());
        for bits in 0..2 << count {
            subject.call(format!("reads {run} {}", order(count + 1, bits)));
        }
        subject.call(format!("ends {run}"));
        subject.call(format!("parts {run}"));
    }
    subject.note("Longer runs, with reads too many at both ends.");
    for count in [5, 6, 7, 10, 10, 63, 64, 65, 127, 189] {
        let run = hex(&random.bytes(12 * count));
        let bits = random.next() as usize;
        subject.call(format!("reads {run} {}fbbf", order(count, bits)));
        subject.call(format!("reads {run} fbf{}", "b".repeat(count)));
    }
    subject.note("Bytes that are no run: 9, and nothing to read.");
    for length in [1, 11, 13, 23, 25, 35] {
        let bytes = hex(&random.bytes(length));
        subject.call(format!("reads {bytes} f"));
        subject.call(format!("reads {bytes} bfb"));
        subject.call(format!("ends {bytes}"));
        subject.call(format!("parts {bytes}"));
    }
    subject.note("The hop fields of paths and of segments.");
    for bytes in samples(random) {
        subject.call(format!("hops 1 {}", word(&bytes)));
        for index in [0, 1, 2, 3, usize::MAX] {
            subject.call(format!("seghops 1 {} {index}", word(&bytes)));
        }
    }
    subject
}

/// Samples with other times and expiry bytes, so that any hop field may be the first to expire.
fn timed_samples(random: &mut Random) -> Vec<Vec<u8>> {
    let mut all = samples(random);
    for bytes in &mut all {
        let word = u32::from_be_bytes([bytes[0], bytes[1], bytes[2], bytes[3]]) as usize;
        let shape = shapes::shape([word >> 12 & 63, word >> 6 & 63, word & 63]);
        for k in 0..shape.info_fields {
            let time = random.pick(&[10u32, 300, 700, 1000]);
            bytes[shape.info_at(k) + 4..][..4].copy_from_slice(&time.to_be_bytes());
        }
        for h in 0..shape.hop_fields {
            bytes[shape.hop_at(h) + 1] = random.below(10) as u8;
        }
    }
    all
}

/// Records with their expiry: as calls hand them back, and made by hand.
fn records(random: &mut Random) -> Subject {
    let mut subject = Subject::new("records");
    subject.note(
        "The record that reading hands back; zero, and without an expiry, where it refuses or the type is another.",
    );
    for bytes in timed_samples(random) {
        let text = word(&bytes);
        subject.call(format!("recordread 1 {text}"));
        subject.call(format!("recordread 1 {}", word(&bytes[..bytes.len() - 1])));
        subject.call(format!("recordread {} {text}", random.pick(&[0, 2, 255])));
        let count = sample_hop_fields(&bytes);
        for index in (0..=count).chain([9_000_000_000_000, 9_000_000_000_001, usize::MAX]) {
            subject.call(format!("recordviews 1 {text} {index}"));
        }
    }
    for time in ["00000000", "00000001", "fffffffe", "ffffffff"] {
        for byte in ["00", "01", "fe", "ff"] {
            subject.call(format!("recordread 1 0000100000000000{time}00{byte}+10"));
        }
    }
    left_records(random, &mut subject);
    made_records(&mut subject);
    subject
}

/// The records of what calls leave, and of packets.
fn left_records(random: &mut Random, subject: &mut Subject) {
    subject.note("Alert flags, moves, walks, copies and turns leave the expiry as it was; a refusal has none.");
    for bytes in timed_samples(random) {
        let (count, text) = (sample_hop_fields(&bytes), word(&bytes));
        for index in [random.below(count), count] {
            subject.call(format!("recordalert 1 {text} {index} {} {}", random.below(2), random.below(2)));
        }
        subject.call(format!("recordmove 1 {text}"));
        for limit in [0, 1, usize::MAX] {
            subject.call(format!("recordwalk 1 {text} {limit}"));
        }
        for size in [bytes.len(), bytes.len() - 1, bytes.len() + 1] {
            let dst = word(&vec![0xee; size]);
            subject.call(format!("recordcopy 1 {text} {dst}"));
            subject.call(format!("recordturn 1 {text} {dst}"));
        }
    }
    let bytes = word(&sample([2, 1, 0], 1, 2, 0));
    subject.call(format!("recordcopy 1 {bytes} {}", driver_buffer()));
    subject.call(format!("recordturn 1 {bytes} {}", driver_buffer()));
    for (path_type, bytes) in [(0, "-"), (2, "00001000+20"), (1, "00002001+44"), (1, "000020")] {
        subject.call(format!("recordread {path_type} {bytes}"));
        subject.call(format!("recordviews {path_type} {bytes} 0"));
        subject.call(format!("recordalert {path_type} {bytes} 0 1 1"));
        subject.call(format!("recordmove {path_type} {bytes}"));
        subject.call(format!("recordwalk {path_type} {bytes} 1"));
        subject.call(format!("recordcopy {path_type} {bytes} eeee+22"));
        subject.call(format!("recordturn {path_type} {bytes} eeee+22"));
    }
    subject.note("The record of a packet's path.");
    for path_type in [0, 1, 1, 1, 2] {
        let path = if path_type == 0 { Vec::new() } else { sample([1, 1, 0], 1, random.below(2), 0) };
        let bytes = shapes::packet_of(random, &PacketParts { kinds: 0, path_type, path, payload: 1 });
        subject.packet_record(&bytes);
        subject.packet_record(&bytes[..bytes.len() - 1]);
    }
}

/// Records made by hand, by the request's text: the Rust has none.
fn made_records(subject: &mut Subject) {
    subject.note(
        "Records made by hand, by request 2026-01's text: any number is told, and 10 for a time left beyond a bound.",
    );
    let bounds = [4_295_053_695_000, 9_000_000_000_000, 1 << 63];
    let expiries: Vec<u64> = bounds.iter().flat_map(|bound| [bound - 1, *bound, bound + 1]).collect();
    for expiry in expiries.into_iter().chain([0, 1, 337_500, 338_500, u64::MAX]) {
        subject.call(format!("recordexp {expiry}"));
        for now in [0, 1, 338_501, 9_000_000_000_000, 9_000_000_000_001, u64::MAX] {
            subject.call(format!("recordleft {expiry} {now}"));
        }
    }
}

/// An order of reads by the bits of a number, which is gone through again where it is too short.
fn order(count: usize, bits: usize) -> String {
    (0..count).map(|k| if bits >> (k % 64) & 1 == 0 { 'f' } else { 'b' }).collect()
}

/// The words of an address's host.
fn host_words(host: &Host) -> String {
    let length = if host.kind == 4 { 0 } else { shapes::host_length(host.kind) };
    format!("{} {} {}", host.kind, host.service, hex(&host.bytes[..length]))
}

/// The words of an address header, whose hosts have a padding each.
fn ends_words(ends: &Ends) -> String {
    let host = |host: &Host| format!("{} {}", host_words(host), host.padding);
    format!("{} {} {} {}", ends.destination_ia, ends.source_ia, host(&ends.destination), host(&ends.source))
}

/// The words of any address header of these kinds.
fn any_ends_words(random: &mut Random, kinds: u8) -> String {
    ends_words(&shapes::ends(random, kinds >> 4, kinds & 15))
}

/// How many bytes the hosts of two kinds take.
fn hosts_length(kinds: u8) -> usize {
    shapes::host_length(kinds >> 4) + shapes::host_length(kinds & 15)
}

/// Headers made and written, with every answer.
fn writing(random: &mut Random) -> Subject {
    let mut subject = Subject::new("writing");
    subject.note("Headers made: every pair of host kinds, lengths at the border of the factor.");
    for kinds in (0..=255u8).step_by(5) {
        let (kind, length) = (random.pick(&[0, 2, 255]), random.below(20));
        let added = if kind == 0 { 0 } else { 3 + length };
        let dst = word(&vec![0xee; 28 + hosts_length(kinds) + added as usize]);
        subject.call(format!("new 17 9 1 {kind} {} 010203+{length} {dst}", any_ends_words(random, kinds)));
    }
    for length in [0, 1, 3, 4, 5, 8, 980, 984, 987, 988, 1200] {
        let path = if length == 0 { String::from("-") } else { format!("aa+{}", length - 1) };
        subject.call(format!("new 17 0 1 2 {} {path} 00+{}", any_ends_words(random, 0), 35 + length));
    }
    subject.note("Headers written: 10, 3, 12, 11, 9 in this order, and what is written.");
    let mut ends = shapes::ends(random, 0, 4);
    ends.source.padding = 0;
    let ends = ends_words(&ends);
    for (flow, factor, payload, size) in faults() {
        let dst = word(&vec![0xee; size]);
        subject.call(format!("write 0 171 {flow} 17 {factor} {payload} 2 65535 {ends} 0102030405060708 {dst}"));
    }
    for version in [0, 1, 15, 16, 255] {
        subject.call(format!("write {version} 0 1 17 11 0 0 0 {ends} 01020304 {}", word(&[0xee; 36])));
    }
    for kinds in (0..=255u8).step_by(3) {
        let ends = any_ends_words(random, kinds);
        let dst = word(&vec![0; 28 + hosts_length(kinds) + 3]);
        subject.call(format!("write 0 0 1 17 9 5 7 0 {ends} 010203 {dst}"));
    }
    subject.note("A standard path that was read, and one that was not, which document 01 has written as it is.");
    for path in [sample([1, 0, 0], 1, 0, 0), sample([2, 1, 0], 1, 2, 63), vec![0, 0, 0x20, 1]] {
        let dst = word(&vec![0xee; 36 + path.len()]);
        let factor = (36 + path.len()) / 4;
        subject.call(format!("write 0 0 1 17 {factor} 0 1 0 {} {} {dst}", any_ends_words(random, 0), word(&path)));
    }
    subject
}

/// Flow, factor, payload and destination size: each fine or at fault.
fn faults() -> Vec<(u32, usize, usize, usize)> {
    let mut all = Vec::new();
    for flow in [0xf_ffff, 0x10_0000] {
        for factor in [11, 0, 256, 255, 1] {
            for payload in [65_535, 65_536] {
                all.extend([44, 43, 45].map(|size| (flow, factor, payload, size)));
            }
        }
    }
    all
}

/// The padding of services, by request 2026-05: read, written, zero in new headers, and ignored of any other host.
fn padding() -> Subject {
    let mut subject = Subject::new("padding");
    subject.note("A service with a padding at either end, beside every kind of host, whose own is ignored.");
    for other in 0..16 {
        padded(&mut subject, 0x40 | other, [0xbeef, 1]);
        if other != 4 {
            padded(&mut subject, other << 4 | 4, [0xffff, 0x100]);
        }
    }
    subject.note("Two services with every border of a padding, none among them.");
    for paddings in [[0, 0], [0, 1], [1, 0], [0xff, 0xff00], [0x100, 0xff], [0xffff, 0xffff]] {
        padded(&mut subject, 0x44, paddings);
    }
    subject.note("Paddings given for hosts that are no services: ignored, and the Rust writes the same.");
    for kind in (0..16).filter(|kind| *kind != 4) {
        write_padded(&mut subject, &padded_ends(kind << 4 | kind, [0xffff, 1]));
    }
    refused_padding(&mut subject);
    subject
}

/// Services that are cut short, and headers with paddings that are not written.
fn refused_padding(subject: &mut Subject) {
    subject.note("Services cut short at every byte, and headers that are refused for other reasons.");
    let ends = padded_ends(0x44, [0xbeef, 1]);
    let address = padded_address(&ends);
    for length in 16..address.len() {
        subject.call(format!("address 4 4 {}", hex(&address[..length])));
        subject.packet(&[&lines::parse_bytes("000000011109000000440000"), &address[..length]].concat());
    }
    let words = ends_words(&ends);
    for (flow, factor, payload, size) in
        [(1 << 20, 9, 0, 36), (1, 0, 0, 36), (1, 256, 0, 36), (1, 9, 65_536, 36), (1, 9, 0, 35), (1, 9, 0, 37)]
    {
        let dst = word(&vec![0xee; size]);
        subject.call(format!("write 0 0 {flow} 17 {factor} {payload} 0 0 {words} - {dst}"));
    }
    for size in [0, 23, 25] {
        subject.call(format!("putaddress {words} {}", word(&vec![0xee; size])));
    }
}

/// Two ends of these kinds with these paddings, their other values told apart.
fn padded_ends(kinds: u8, paddings: [u16; 2]) -> Ends {
    let host = |kind: u8, first: u8, service: u16, padding: u16| {
        let mut host = Host { kind, padding, ..Host::default() };
        if kind == 4 {
            host.service = service;
        } else {
            let bytes = &mut host.bytes[..shapes::host_length(kind)];
            bytes.iter_mut().zip(first..).for_each(|(byte, value)| *byte = value);
        }
        host
    };
    Ends {
        destination_ia: 0x0001_ff00_0000_0110,
        destination: host(kinds >> 4, 0xd0, 2, paddings[0]),
        source_ia: 0x0002_ff00_0000_0220,
        source: host(kinds & 15, 0x50, 0x8002, paddings[1]),
    }
}

/// The bytes of an address header.
fn padded_address(ends: &Ends) -> Vec<u8> {
    let mut bytes = vec![0; 16 + hosts_length(ends.destination.kind << 4 | ends.source.kind)];
    model::write_address(ends, &mut bytes);
    bytes
}

/// Headers of these ends and this path: a packet without a payload.
fn headers_alone(ends: &Ends, path_type: u8, path: &[u8]) -> Vec<u8> {
    let address = padded_address(ends);
    let factor = (12 + address.len() + path.len()) / 4;
    let kinds = ends.destination.kind << 4 | ends.source.kind;
    let common = [0x0a, 0xb1, 0x23, 0x45, 0x11, factor as u8, 0, 0, path_type, kinds, 0xab, 0xcd];
    [&common[..], &address, path].concat()
}

/// A packet and an address header with these paddings read, and then written.
fn padded(subject: &mut Subject, kinds: u8, paddings: [u16; 2]) {
    let ends = padded_ends(kinds, paddings);
    let address = padded_address(&ends);
    subject.packet(&headers_alone(&ends, 0, &[]));
    subject.call(format!("address {} {} {}", kinds >> 4, kinds & 15, hex(&address)));
    write_padded(subject, &ends);
}

/// An address header written alone, as that packet's and as that of new headers.
fn write_padded(subject: &mut Subject, ends: &Ends) {
    let (words, length) = (ends_words(ends), padded_address(ends).len());
    let [alone, whole] = [length, 12 + length].map(|size| word(&vec![0xee; size]));
    subject.call(format!("putaddress {words} {alone}"));
    subject.call(format!("write 0 171 74565 17 {} 0 0 43981 {words} - {whole}", (12 + length) / 4));
    subject.call(format!("new 17 0 74565 0 {words} - {whole}"));
}

/// Packets beside as many bytes as their headers take by the factor, by request 2026-06: refused, and read as captures.
fn short_headers() -> Subject {
    let mut subject = Subject::new("short");
    subject.note("A smallest packet under several factors: alone, then with zeros to one byte fewer than the factor's, and to all.");
    for factor in [9, 10, 11, 12, 18, 63, 64, 65, 127, 128, 129, 254, 255] {
        let exact = 4 * usize::from(factor);
        for length in [36, exact - 1, exact] {
            subject.packet(&smallest(&[(5, factor)], length));
        }
    }
    subject.note("Every kind of host at either end, and each sort of path: just the factor's bytes, and beside that.");
    for kind in 0..16 {
        for (kinds, path_type) in [(kind << 4, [0, 1, 2, 255]), (kind, [255, 0, 1, 2])] {
            beside_factor(&mut subject, kinds, path_type[usize::from(kind % 4)]);
        }
    }
    subject.note("Cut at every byte of the path, and under a factor that is too large, with a payload and without.");
    for path_type in [0, 1, 2, 255] {
        let whole = headers_alone(&padded_ends(0, [0, 0]), path_type, &path_of_type(path_type));
        for (more, payload) in [(0, 0), (0, 1), (1, 0), (1, 1)] {
            let mut bytes = [&whole[..], &[0x77; 5]].concat();
            bytes[5] += more;
            bytes[7] = payload;
            (36..=bytes.len()).for_each(|length| subject.packet(&bytes[..length]));
        }
    }
    refused_packets(&mut subject);
    subject
}

/// A smallest packet with bytes set, and zeros after it or cut.
fn smallest(edits: &[(usize, u8)], length: usize) -> Vec<u8> {
    let mut bytes = lines::parse_bytes(K36);
    edits.iter().for_each(|(place, byte)| bytes[*place] = *byte);
    bytes.resize(length, 0);
    bytes
}

/// The bytes of a small path of a type.
fn path_of_type(path_type: u8) -> Vec<u8> {
    match path_type {
        0 => Vec::new(),
        1 => sample([1, 0, 0], 1, 0, 0),
        _ => vec![1, 2, 3, 4],
    }
}

/// Headers of these kinds and a path of a type: under their factor and under one that is too large, all bytes, one fewer and
/// one more, and with a payload; and the records of their path.
fn beside_factor(subject: &mut Subject, kinds: u8, path_type: u8) {
    let whole = headers_alone(&padded_ends(kinds, [0xbeef, 1]), path_type, &path_of_type(path_type));
    let exact = whole.len();
    for more in [0, 1] {
        let mut bytes = [&whole[..], &[0x77]].concat();
        bytes[5] += more;
        [exact - 1, exact, exact + 1].iter().for_each(|length| subject.packet(&bytes[..*length]));
        if path_type == 1 {
            subject.packet_record(&bytes[..exact]);
        }
        bytes[7] = 1;
        subject.packet(&bytes);
    }
}

/// Refusals of packets that have all the bytes of their factor, and of ones that have not.
fn refused_packets(subject: &mut Subject) {
    subject.note("Versions and factors that are refused first, with all of the factor's bytes and with fewer.");
    for length in [12, 30, 31, 32, 35, 36, 40] {
        for first in [0x10, 0xf0] {
            subject.packet(&smallest(&[(0, first)], length));
            subject.packet(&smallest(&[(0, first), (5, 10)], length));
        }
        for factor in 0..9 {
            subject.packet(&smallest(&[(5, factor)], length));
        }
    }
    subject
        .note("Paths that are refused: the capture reading has their number also with fewer bytes than the factor's.");
    for meta in ["00002001", "40002000", "02002000", "00002000", "000020"] {
        for factor in [9, 10, 11, 255] {
            for payload in [0, 1] {
                let packet = smallest(&[(5, factor), (7, payload), (8, 1)], 36);
                subject.packet(&[&packet[..], &lines::parse_bytes(meta)].concat());
            }
        }
    }
    subject.note("Bytes that were sent as a payload are the headers' first.");
    for (payload, length) in [(4, 40), (1, 36), (1, 40), (4, 44), (0, 39), (0, 40)] {
        for path_type in [0, 1, 2, 255] {
            subject.packet(&smallest(&[(5, 10), (7, payload), (8, path_type)], length));
        }
    }
}

/// Writes a subject's lines to files of at most so many bytes; how many files and lines.
fn store(folder: &Path, subject: Subject) -> (usize, usize) {
    let mut files: Vec<String> = vec![String::new()];
    for line in &subject.lines {
        if files.last().expect("a file").len() + line.len() + 1 > MOST {
            files.push(String::new());
        }
        let file = files.last_mut().expect("a file");
        file.push_str(line);
        file.push('\n');
    }
    for (index, text) in files.iter().enumerate() {
        fs::write(folder.join(format!("{}-{}.txt", subject.name, index + 1)), text).expect("a file written");
    }
    (files.len(), subject.lines.iter().filter(|line| !line.starts_with('#')).count())
}

/// The whole list, by subject.
fn subjects() -> Vec<Subject> {
    let mut random = Random::new(2026);
    vec![
        meta(&mut random),
        fields(&mut random),
        paths(&mut random),
        moves(),
        packets(&mut random),
        headers(&mut random),
        writing(&mut random),
        runs(&mut random),
        records(&mut random),
        padding(),
        short_headers(),
    ]
}

/// Every line of the list.
pub fn all_lines() -> Vec<String> {
    subjects().into_iter().flat_map(|subject| subject.lines).collect()
}

/// Writes the whole list to a folder.
pub fn run(folder: &str) -> bool {
    let folder = Path::new(folder);
    fs::create_dir_all(folder).expect("a folder");
    for subject in subjects() {
        let name = subject.name;
        let (files, lines) = store(folder, subject);
        println!("list: {name}: {lines} calls in {files} files");
    }
    true
}
