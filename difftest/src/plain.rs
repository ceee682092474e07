//! The plain C of the benchmark, behind slices, and its answers held to the library's before it is timed.

use std::fmt::Debug;

use scion_proto::{Answer, Answered, Capture, Ends, Expiry, Host, Packet, Path, PathRead, WrittenPath, calls};

use crate::bench;
use crate::plant::{self, Plant};
use crate::random::Random;
use crate::shapes;
use crate::tally::{Call, hex};

unsafe extern "C" {
    fn plain_read_packet(bytes: *const u8, len: usize) -> Packet;
    fn plain_read_capture(bytes: *const u8, len: usize) -> Capture;
    fn plain_read_path(path_type: u8, bytes: *const u8, len: usize) -> PathRead;
    fn plain_expiry(path_type: u8, bytes: *const u8, len: usize) -> Expiry;
    fn plain_record_expiry(path: Path) -> u64;
    fn plain_reverse_path(path_type: u8, bytes: *const u8, len: usize, dst: *mut u8, dst_len: usize) -> WrittenPath;
    fn plain_write_new_headers(
        destination_ia: u64,
        destination: Host,
        source_ia: u64,
        source: Host,
        path_type: u8,
        next_header: u8,
        payload_length: usize,
        flow_id: u32,
        path: *const u8,
        path_len: usize,
        dst: *mut u8,
        dst_len: usize,
    ) -> Answer;
}

/// `plain_read_packet`.
pub fn read_packet(bytes: &[u8]) -> Packet {
    unsafe { plain_read_packet(bytes.as_ptr(), bytes.len()) }
}

/// `plain_read_capture`.
pub fn read_capture(bytes: &[u8]) -> Capture {
    unsafe { plain_read_capture(bytes.as_ptr(), bytes.len()) }
}

/// `plain_read_path`.
pub fn read_path(path_type: u8, bytes: &[u8]) -> PathRead {
    unsafe { plain_read_path(path_type, bytes.as_ptr(), bytes.len()) }
}

/// `plain_expiry`.
pub fn expiry(path_type: u8, bytes: &[u8]) -> Expiry {
    unsafe { plain_expiry(path_type, bytes.as_ptr(), bytes.len()) }
}

/// `plain_record_expiry`.
pub fn record_expiry(path: Path) -> u64 {
    unsafe { plain_record_expiry(path) }
}

/// `plain_reverse_path`.
pub fn reverse_path(path_type: u8, bytes: &[u8], dst: &mut [u8]) -> WrittenPath {
    unsafe { plain_reverse_path(path_type, bytes.as_ptr(), bytes.len(), dst.as_mut_ptr(), dst.len()) }
}

/// `plain_write_new_headers`.
pub fn write_new_headers(
    ends: &Ends,
    path_type: u8,
    next_header: u8,
    payload_length: usize,
    flow_id: u32,
    path: &[u8],
    dst: &mut [u8],
) -> Answer {
    unsafe {
        plain_write_new_headers(
            ends.destination_ia,
            ends.destination,
            ends.source_ia,
            ends.source,
            path_type,
            next_header,
            payload_length,
            flow_id,
            path.as_ptr(),
            path.len(),
            dst.as_mut_ptr(),
            dst.len(),
        )
    }
}

/// The calls that there are in plain C.
pub const CALLS: [Call; 7] = [
    Call::ReadPacket,
    Call::ReadCapture,
    Call::ReadPath,
    Call::Expiry,
    Call::RecordExpiry,
    Call::ReversePath,
    Call::WriteNewHeaders,
];

/// How many inputs of each sort are random.
const RANDOM: usize = 2_000;

/// How many calls were held to the library's answers, and the first that differed.
#[derive(Default)]
pub struct Held {
    pub compared: usize,
    pub differed: Option<String>,
    plant: Option<Plant>,
}

impl Held {
    /// Compares two answers, and the destinations after them.
    fn hold<T: Answered + PartialEq + Debug>(
        &mut self,
        call: Call,
        (mut plain, mut plain_dst): (T, Vec<u8>),
        (ours, dst): (T, Vec<u8>),
        input: &[u8],
    ) {
        plant::lent(&self.plant, call, plain.answer(), &mut plain_dst);
        plant::answer(&self.plant, call, &mut plain);
        self.compared += 1;
        if (plain != ours || plain_dst != dst) && self.differed.is_none() {
            self.differed = Some(format!("{call:?} of {}: plain C {plain:?}, library {ours:?}", hex(input)));
        }
    }

    /// Compares a call that writes to a destination of so many bytes.
    fn written<T: Answered + PartialEq + Debug>(
        &mut self,
        call: Call,
        input: &[u8],
        size: usize,
        plain: impl FnOnce(&mut [u8]) -> T,
        ours: impl FnOnce(&mut [u8]) -> T,
    ) {
        let (mut plain_dst, mut dst) = (vec![0xee; size], vec![0xee; size]);
        let (plain, ours) = (plain(&mut plain_dst), ours(&mut dst));
        self.hold(call, (plain, plain_dst), (ours, dst), input);
    }

    /// A packet by both readings, and the expiry of its record.
    fn packet(&mut self, bytes: &[u8]) {
        let none = Vec::new;
        let ours = calls::read_packet(bytes);
        self.hold(Call::ReadPacket, (read_packet(bytes), none()), (ours, none()), bytes);
        let ours = calls::read_capture(bytes);
        self.hold(Call::ReadCapture, (read_capture(bytes), none()), (ours, none()), bytes);
        self.record(ours.packet.path);
    }

    /// The expiry of a record.
    fn record(&mut self, record: Path) {
        let (mut plain, ours) = (record_expiry(record), calls::record_expiry(record));
        plant::value(&self.plant, Call::RecordExpiry, &mut plain);
        self.compared += 1;
        if plain != ours && self.differed.is_none() {
            self.differed = Some(format!("RecordExpiry of {record:?}: plain C {plain}, library {ours}"));
        }
    }

    /// A path read, its expiry by its bytes and by its record, and it turned into destinations of every size.
    fn path(&mut self, path_type: u8, bytes: &[u8]) {
        let none = Vec::new;
        let (plain, ours) = (read_path(path_type, bytes), calls::read_path(path_type, bytes));
        let length = ours.length;
        self.hold(Call::ReadPath, (plain, none()), (ours, none()), bytes);
        self.record(ours.path);
        let (plain, ours) = (expiry(path_type, bytes), calls::expiry(path_type, bytes));
        self.hold(Call::Expiry, (plain, none()), (ours, none()), bytes);
        let planted = self.plant;
        for size in shapes::sizes(length).into_iter().chain([bytes.len()]) {
            let plain = |dst: &mut [u8]| {
                let mut written = reverse_path(path_type, bytes, dst);
                plant::front(&planted, Call::ReversePath, &mut written, dst);
                written
            };
            self.written(Call::ReversePath, bytes, size, plain, |dst| calls::reverse_path(path_type, bytes, dst));
        }
    }

    /// Headers written into destinations of their length and beside it.
    fn headers(&mut self, ends: &Ends, path_type: u8, path: &[u8], payload: usize, flow: u32) {
        let made = calls::new_headers(ends, path_type, path.len(), 17, payload, flow);
        let length = calls::headers_length(&made, path.len());
        for size in [length, length + 1, length - 1, 0] {
            let plain = |dst: &mut [u8]| write_new_headers(ends, path_type, 17, payload, flow, path, dst);
            let ours = |dst: &mut [u8]| calls::write_new_headers(ends, path_type, 17, payload, flow, path, dst);
            self.written(Call::WriteNewHeaders, path, size, plain, ours);
        }
    }
}

/// Holds plain C to the library on the inputs that are timed, and on random, short and damaged ones.
pub fn held(plant: Option<Plant>) -> Held {
    let mut held = Held { plant, ..Held::default() };
    let mut random = Random::new(91);
    for (packets, paths) in bench::timed() {
        packets.iter().for_each(|bytes| held.packet(bytes));
        for path in paths {
            held.path(1, &path);
            held.headers(&bench::ends(), 1, &path, 64, 1);
        }
    }
    for _ in 0..RANDOM {
        let mut bytes = shapes::packet(&mut random);
        held.packet(&bytes);
        let mut short = bytes.clone();
        shapes::shorten(&mut random, &mut short);
        held.packet(&short);
        let head = random.pick(&[12, 44, 60]);
        shapes::damage(&mut random, &mut bytes, head);
        held.packet(&bytes);
        bytes.truncate(random.below(bytes.len() + 1));
        held.packet(&bytes);
        let mut path = shapes::path(&mut random);
        held.path(1, &path);
        held.path(1, &[&path[..], &[0x77]].concat());
        held.path(random.pick(&[0, 2, 7, 255]), &path);
        let (kinds, flow) = (random.next() as u8, random.pick(&[0, 1, 0xf_ffff, 0x10_0000]));
        let mut ends = shapes::ends(&mut random, kinds >> 4, kinds & 15);
        shapes::pad(&mut random, &mut ends);
        if random.once_in(16) {
            ends.source.kind += 16;
        }
        let path_type = shapes::path_type(&mut random);
        held.headers(&ends, path_type, &path, random.pick(&[0, 1, 65_535, 65_536]), flow);
        shapes::damage(&mut random, &mut path, 4);
        held.path(1, &path);
    }
    held
}
