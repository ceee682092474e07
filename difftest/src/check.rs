//! Each call made on both sides and compared: the answer, and every lent byte with the guards around it.

use std::fmt::Debug;

use scion_proto::{Ends, Headers, HopField, InfoField, Packet, Path, calls};
use scion_rs::path::standard::{HopField as RustHopField, InfoField as RustInfoField};

use crate::lent::Lent;
use crate::model;
use crate::oracle::path::{Expected, Oracle};
use crate::oracle::{self, ACCEPTED};
use crate::plant::{self, Plant};
use crate::records::{self, Recorded};
use crate::tally::{Call, Source, Tally, hex};

/// Compares calls and counts them.
#[derive(Default)]
pub struct Checker {
    pub tally: Tally,
    pub plant: Option<Plant>,
    /// Stops a run at its first difference: set where only the finding counts.
    stop_at_first: bool,
    source: Lent,
    dst: Lent,
    /// How many records that calls handed back have been asked for their times.
    records: usize,
}

/// A path call's input: its type and its bytes.
#[derive(Clone, Copy)]
pub struct Input<'a> {
    pub path_type: u8,
    pub bytes: &'a [u8],
}

impl Checker {
    /// A checker that stops at the first difference.
    pub fn stopping() -> Self {
        Self { stop_at_first: true, ..Self::default() }
    }

    /// The same with a fault planted.
    pub fn planted(plant: Plant) -> Self {
        Self { plant: Some(plant), ..Self::stopping() }
    }

    /// Whether the run is over.
    pub fn is_done(&self) -> bool {
        self.stop_at_first && self.tally.differed > 0
    }

    /// The two calls on a record that a call has handed back, at a time beside one of the borders, each in its turn.
    fn record_of(&mut self, answer: &impl Recorded) {
        let Some(record) = answer.record() else { return };
        let nows = records::nows(record.expiry);
        self.records += 1;
        self.record_expiry(record);
        self.record_time_left(record, nows[self.records % nows.len()]);
    }

    /// The expiry of a record.
    pub fn record_expiry(&mut self, record: Path) {
        let mut ms = calls::record_expiry(record);
        plant::value(&self.plant, Call::RecordExpiry, &mut ms);
        self.tally.count(Call::RecordExpiry, ACCEPTED, Source::Model);
        self.tally.values(Call::RecordExpiry, &ms, &model::record_expiry(&record), || format!("{record:?}"));
    }

    /// The time left of a record.
    pub fn record_time_left(&mut self, record: Path, now: u64) {
        let mut answer = calls::record_time_left(record, now);
        plant::answer(&self.plant, Call::RecordTimeLeft, &mut answer);
        let expected = model::record_time_left(&record, now);
        let words = || format!("{record:?} now {now}");
        self.tally.compare(Call::RecordTimeLeft, &answer, (&expected, Source::Model), words);
    }

    /// Compares a call that only reads the lent bytes; the library's answer.
    fn reading<T: Recorded + PartialEq + Debug>(
        &mut self,
        call: Call,
        input: Input,
        argument: impl Debug,
        (expected, source): Expected<T>,
        ours: impl FnOnce(&[u8]) -> T,
    ) -> T {
        let mut answer = ours(self.source.bytes());
        plant::lent(&self.plant, call, answer.answer(), self.source.room_mut());
        plant::answer(&self.plant, call, &mut answer);
        let words = || describe(input, &argument);
        self.tally.compare(call, &answer, (&expected, source), words);
        if self.source.room() != self.source.expected() {
            self.tally.bytes(call, self.source.room(), self.source.expected(), words);
            self.source.set(input.bytes);
        }
        self.record_of(&answer);
        answer
    }

    /// Reads a path; the other calls on it need the oracle that this hands back.
    pub fn read_path<'a>(&mut self, input: Input<'a>) -> Oracle<'a> {
        self.source.set(input.bytes);
        let oracle = Oracle::new(input.path_type, input.bytes);
        let expected = (oracle.read_path(), Source::Rust);
        self.reading(Call::ReadPath, input, (), expected, |bytes| calls::read_path(input.path_type, bytes));
        oracle
    }

    /// Info field `index`.
    pub fn info_field(&mut self, input: Input, oracle: &Oracle, index: usize) {
        let expected = (oracle.info_field(index), oracle.source());
        self.reading(Call::InfoField, input, index, expected, |bytes| calls::info_field(input.path_type, bytes, index));
    }

    /// Hop field `index`.
    pub fn hop_field(&mut self, input: Input, oracle: &Oracle, index: usize) {
        let expected = (oracle.hop_field(index), oracle.source());
        self.reading(Call::HopField, input, index, expected, |bytes| calls::hop_field(input.path_type, bytes, index));
    }

    /// Segment `index`.
    pub fn segment(&mut self, input: Input, oracle: &Oracle, index: usize) {
        let expected = (oracle.segment(index), oracle.source());
        self.reading(Call::Segment, input, index, expected, |bytes| calls::segment(input.path_type, bytes, index));
    }

    /// The hop fields of segment `index` taken from either end by the Rust, and by their indexes from the library;
    /// both tell how many remain.
    pub fn run_of_hop_fields(&mut self, input: Input, oracle: &Oracle, index: usize, mut choices: u64) {
        let Ok(segment) = oracle.rust_segment(index) else { return };
        let mut run = segment.hop_fields();
        let first = before(oracle, index);
        let mut left = first..first + calls::segment(input.path_type, input.bytes, index).hop_fields.len / 12;
        loop {
            let words = || describe(input, &("run", index));
            self.tally.values(Call::Segment, &left.len(), &run.len(), words);
            choices = choices.rotate_right(1);
            let is_front = choices & 1 == 0;
            let field = if is_front { run.next() } else { run.next_back() };
            let at = if is_front { left.next() } else { left.next_back() };
            let (Some(at), Some(field)) = (at, field) else {
                let is_over = at.is_none() && run.next().is_none() && run.next_back().is_none();
                self.tally.values(Call::Segment, &true, &is_over, words);
                return;
            };
            self.field_of_run(input, oracle, (at, index), (field, segment.info_field()));
        }
    }

    /// A hop field and what follows from it and its info field, from the library by their indexes.
    fn field_of_run(
        &mut self,
        input: Input,
        oracle: &Oracle,
        at: (usize, usize),
        (field, info): (&RustHopField, &RustInfoField),
    ) {
        let words = || describe(input, &at);
        let answer = calls::hop_field(input.path_type, input.bytes, at.0);
        let expected = oracle.hop_values(field);
        self.tally.compare(Call::HopField, &answer, (&expected, Source::Rust), words);
        let ours = derived(&answer, &calls::info_field(input.path_type, input.bytes, at.1));
        self.tally.values(Call::HopField, &ours, &oracle::path::derived(field, info), words);
    }

    /// When segment `index` expires.
    pub fn segment_expiry(&mut self, input: Input, oracle: &Oracle, index: usize) {
        let expected = (oracle.segment_expiry(index), oracle.source());
        self.reading(Call::SegmentExpiry, input, index, expected, |bytes| {
            calls::segment_expiry(input.path_type, bytes, index)
        });
    }

    /// When the path expires.
    pub fn expiry(&mut self, input: Input, oracle: &Oracle) {
        let expected = (oracle.expiry(), oracle.source());
        self.reading(Call::Expiry, input, (), expected, |bytes| calls::expiry(input.path_type, bytes));
    }

    /// The time left.
    pub fn time_left(&mut self, input: Input, oracle: &Oracle, now: u64) {
        let expected = oracle.time_left(now);
        self.reading(Call::TimeLeft, input, now, expected, |bytes| calls::time_left(input.path_type, bytes, now));
    }

    /// How many interfaces there are.
    pub fn interfaces_count(&mut self, input: Input, oracle: &Oracle) {
        let expected = oracle.interfaces_count();
        self.reading(Call::InterfacesCount, input, (), expected, |bytes| {
            calls::interfaces_count(input.path_type, bytes)
        });
    }

    /// Interface `index`.
    pub fn interface(&mut self, input: Input, oracle: &Oracle, index: usize) {
        let expected = oracle.interface(index);
        self.reading(Call::Interface, input, index, expected, |bytes| calls::interface(input.path_type, bytes, index));
    }

    /// Compares a call that changes the lent bytes; `theirs` changes the ones expected.
    fn changing<T: Recorded + PartialEq + Debug>(
        &mut self,
        call: Call,
        input: Input,
        argument: impl Debug,
        theirs: impl FnOnce(&mut [u8]) -> Expected<T>,
        ours: impl FnOnce(&mut [u8]) -> T,
    ) {
        self.source.set(input.bytes);
        let mut answer = ours(self.source.bytes_mut());
        let (expected, source) = theirs(self.source.expected_mut());
        plant::lent(&self.plant, call, answer.answer(), self.source.room_mut());
        plant::answer(&self.plant, call, &mut answer);
        let words = || describe(input, &argument);
        self.tally.compare(call, &answer, (&expected, source), words);
        self.tally.bytes(call, self.source.room(), self.source.expected(), words);
        self.source.set(input.bytes);
        self.record_of(&answer);
    }

    /// An alert flag of hop field `index` set or cleared.
    pub fn set_alert(&mut self, input: Input, oracle: &Oracle, index: usize, is_ingress: bool, on: bool) {
        let theirs = |after: &mut [u8]| (oracle.set_alert(index, is_ingress, on, after), oracle.source());
        if is_ingress {
            self.changing(Call::SetIngressAlert, input, (index, on), theirs, |bytes| {
                calls::set_ingress_router_alert(input.path_type, bytes, index, on)
            });
        } else {
            self.changing(Call::SetEgressAlert, input, (index, on), theirs, |bytes| {
                calls::set_egress_router_alert(input.path_type, bytes, index, on)
            });
        }
    }

    /// A single move.
    pub fn single_move(&mut self, input: Input, oracle: &Oracle) {
        let theirs = |after: &mut [u8]| (model::single_move(oracle, after), Source::Model);
        self.changing(Call::Move, input, (), theirs, |bytes| calls::single_move(input.path_type, bytes));
    }

    /// A walk.
    pub fn walk(&mut self, input: Input, oracle: &Oracle, limit: usize) {
        let theirs = |after: &mut [u8]| (model::walk(oracle, after, limit), Source::Model);
        self.changing(Call::Walk, input, limit, theirs, |bytes| calls::walk(input.path_type, bytes, limit));
    }

    /// A copy into a destination of so many bytes.
    pub fn copy_path(&mut self, input: Input, oracle: &Oracle, size: usize) {
        self.dst.set_filled(0xee, size);
        let expected = oracle.copy_path(self.dst.expected_mut());
        let mut answer = calls::copy_path(input.path_type, self.source.bytes(), self.dst.bytes_mut());
        plant::front(&self.plant, Call::CopyPath, &mut answer, self.dst.bytes_mut());
        self.destined(Call::CopyPath, input, size, expected, answer);
    }

    /// A turn into a destination of so many bytes.
    pub fn reverse_path(&mut self, input: Input, oracle: &Oracle, size: usize) {
        self.dst.set_filled(0xee, size);
        let expected = oracle.reverse_path(self.dst.expected_mut());
        let mut answer = calls::reverse_path(input.path_type, self.source.bytes(), self.dst.bytes_mut());
        plant::front(&self.plant, Call::ReversePath, &mut answer, self.dst.bytes_mut());
        self.destined(Call::ReversePath, input, size, expected, answer);
    }

    /// Compares a call that has written to the destination and read the source.
    fn destined<T: Recorded + PartialEq + Debug>(
        &mut self,
        call: Call,
        input: Input,
        argument: impl Debug,
        (expected, source): Expected<T>,
        mut answer: T,
    ) {
        plant::lent(&self.plant, call, answer.answer(), self.dst.room_mut());
        plant::answer(&self.plant, call, &mut answer);
        let words = || describe(input, &argument);
        self.tally.compare(call, &answer, (&expected, source), words);
        self.tally.bytes(call, self.dst.room(), self.dst.expected(), words);
        self.tally.bytes(call, self.source.room(), self.source.expected(), words);
        self.record_of(&answer);
    }

    /// A packet split by both readings, accepted by the refusing one exactly where request 2026-14 says so, and written again
    /// where the capture reading accepts it; the Rust's packet.
    pub fn read_packet(&mut self, bytes: &[u8]) -> Packet {
        self.source.set(bytes);
        let packet = oracle::packet::read_packet(bytes);
        let input = Input { path_type: 0, bytes };
        let capture = (model::capture(packet, bytes), Source::Rust);
        self.reading(Call::ReadCapture, input, "capture", capture, calls::read_capture);
        let expected = oracle::packet::unless_cut(packet, bytes);
        let ours = self.reading(Call::ReadPacket, input, "packet", expected, calls::read_packet);
        let (is_accepted, words) = (ours.answer.number == 0, || describe(input, &"acceptable"));
        self.tally.values(Call::ReadPacket, &is_accepted, &model::is_acceptable(bytes), words);
        if packet.answer == ACCEPTED {
            self.write_again(&packet, bytes);
        }
        packet
    }

    /// The headers of a packet that was read, written with its own path: as any headers, and besides as they arrived.
    fn write_again(&mut self, packet: &Packet, bytes: &[u8]) {
        let (headers, arrived) = (packet.headers(), &bytes[..packet.payload_part.start]);
        self.write_headers(&headers, packet.path_part.of(bytes), arrived.len());
        let words = || describe(Input { path_type: packet.path_type, bytes }, &("written again", headers));
        self.tally.bytes(Call::WriteHeaders, self.dst.bytes(), arrived, words);
    }

    /// Headers made for a path, and how long they are.
    pub fn new_headers(
        &mut self,
        ends: &Ends,
        path: Input,
        next_header: u8,
        payload_length: usize,
        flow_id: u32,
    ) -> Headers {
        let (path_type, bytes) = (path.path_type, path.bytes);
        let (expected, source) =
            oracle::write::new_headers(ends, path_type, bytes, next_header, payload_length, flow_id);
        let mut made = calls::new_headers(ends, path_type, bytes.len(), next_header, payload_length, flow_id);
        plant::value(&self.plant, Call::NewHeaders, &mut made);
        let words = || describe(path, &(ends, next_header, payload_length, flow_id));
        self.tally.count(Call::NewHeaders, ACCEPTED, source);
        self.tally.values(Call::NewHeaders, &made, &expected, words);
        expected
    }

    /// How many bytes headers take.
    pub fn headers_length(&mut self, headers: &Headers, path: &[u8]) -> usize {
        let (expected, source) = oracle::write::headers_length(headers, path);
        let mut length = calls::headers_length(headers, path.len());
        plant::value(&self.plant, Call::HeadersLength, &mut length);
        let input = Input { path_type: headers.path_type, bytes: path };
        self.tally.count(Call::HeadersLength, ACCEPTED, source);
        self.tally.values(Call::HeadersLength, &length, &expected, || describe(input, headers));
        expected
    }

    /// Headers written to a destination of so many bytes.
    pub fn write_headers(&mut self, headers: &Headers, path: &[u8], size: usize) {
        self.source.set(path);
        self.dst.set_filled(0xee, size);
        let expected = oracle::write::write_headers(headers, path, self.dst.expected_mut());
        let answer = calls::write_headers(headers, self.source.bytes(), self.dst.bytes_mut());
        let input = Input { path_type: headers.path_type, bytes: path };
        self.destined(Call::WriteHeaders, input, (size, headers), expected, answer);
    }

    /// Headers made for a path and written in one call: what the Rust writes of the headers that it makes.
    pub fn write_new_headers(&mut self, ends: &Ends, headers: &Headers, path: &[u8], size: usize) {
        self.source.set(path);
        self.dst.set_filled(0xee, size);
        let expected = oracle::write::write_new_headers(ends, headers, path, self.dst.expected_mut());
        let answer = calls::write_new_headers(
            ends,
            headers.path_type,
            headers.next_header,
            headers.payload_length,
            headers.flow_id,
            self.source.bytes(),
            self.dst.bytes_mut(),
        );
        let input = Input { path_type: headers.path_type, bytes: path };
        self.destined(Call::WriteNewHeaders, input, (size, headers), expected, answer);
    }
}

/// A hop field's ingress and egress by direction and its expiry, from the library's values by document 01.
fn derived(field: &HopField, info: &InfoField) -> (u16, u16, i64) {
    let (mut ingress, mut egress) = (field.cons_ingress, field.cons_egress);
    if !info.is_constructed_dir() {
        (ingress, egress) = (egress, ingress);
    }
    let ms = i64::from(info.timestamp) * 1000 + 337_500 * (1 + i64::from(field.exp_time));
    (ingress, egress, ms)
}

/// How many hop fields stand before segment `index`.
fn before(oracle: &Oracle, index: usize) -> usize {
    let lengths = oracle.record().segment_lengths;
    lengths[..index].iter().map(|length| usize::from(*length)).sum()
}

/// The words of a call's input.
fn describe(input: Input, argument: &dyn Debug) -> String {
    format!("type {} bytes {} argument {argument:?}", input.path_type, hex(input.bytes))
}
