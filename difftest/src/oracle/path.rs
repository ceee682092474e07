//! Paths: reading, views, times, interfaces, alert flags, copies and turns by the Rust.

use std::cell::OnceCell;

use bytes::Bytes;
use scion_proto::{
    Answer, Expiry, HopField, InfoField, Interface, InterfaceCount, Part, Path, PathAnswer, PathRead, Segment,
    TimeLeft, WrittenPath,
};
use scion_rs::address::IsdAsn;
use scion_rs::packet::ByEndpoint;
use scion_rs::path::standard::{HopField as RustHopField, InfoField as RustInfoField, Segment as RustSegment};
use scion_rs::path::{DataplanePath, Path as RustPath, PathType, StandardPath};
use scion_rs::wire_encoding::WireDecodeWithContext;

use super::{ACCEPTED, Refused, expiry_of, lend, number_of, offset, panics, record, record_with, refusal};
use crate::model;
use crate::tally::{Exception, Source};

/// The largest now of document 01.
pub const LATEST_NOW: u64 = 9_000_000_000_000;

/// A type byte and bytes, as the Rust read them, and when the path expires, once the Rust was asked for it.
pub struct Oracle<'a> {
    bytes: &'a [u8],
    read: Result<DataplanePath<Bytes>, Answer>,
    expiry: OnceCell<u64>,
}

/// What a call is to answer, and whose answer that is.
pub type Expected<T> = (T, Source);

impl<'a> Oracle<'a> {
    /// Reads a path; the length beside its type is the byte count.
    pub fn new(path_type: u8, bytes: &'a [u8]) -> Self {
        let context = (PathType::from(path_type), bytes.len());
        let read = DataplanePath::decode_with_context(&mut lend(bytes), context).map_err(number_of);
        Self { bytes, read, expiry: OnceCell::new() }
    }

    /// The same with the expiry that the Rust gave for a path of the same fields.
    pub fn with_expiry(self, expiry: u64) -> Self {
        Self { expiry: expiry.into(), ..self }
    }

    /// The answer to reading.
    pub fn read_path(&self) -> PathRead {
        match &self.read {
            Ok(path) => PathRead { answer: ACCEPTED, path: self.record(), length: path.raw().len() },
            Err(answer) => PathRead::refused(*answer),
        }
    }

    /// The path's record with the Rust's own expiry, zero where it is not a standard one.
    pub fn record(&self) -> Path {
        self.standard().map_or(Path::default(), |path| record_with(path.meta_header(), self.expiry_of(path)))
    }

    /// When the path expires, by the Rust.
    fn expiry_of(&self, path: &StandardPath) -> u64 {
        *self.expiry.get_or_init(|| expiry_of(path))
    }

    /// The standard path: the reading's number, or 8 for other types, where there is none.
    pub fn standard(&self) -> Result<&StandardPath, Answer> {
        match &self.read {
            Ok(DataplanePath::Standard(path)) => Ok(path),
            Ok(_) => Err(refusal(8)),
            Err(answer) => Err(*answer),
        }
    }

    /// Whose the answers to views are: document 01's for other types, where the Rust has none.
    pub fn source(&self) -> Source {
        match &self.read {
            Ok(DataplanePath::Standard(_)) | Err(_) => Source::Rust,
            Ok(_) => Source::Model,
        }
    }

    /// How many bytes the path takes; 0 where it was refused.
    pub fn length(&self) -> usize {
        self.read.as_ref().map_or(0, |path| path.raw().len())
    }

    /// Info field `index`.
    pub fn info_field(&self, index: usize) -> InfoField {
        answered(self.try_info_field(index))
    }

    fn try_info_field(&self, index: usize) -> Result<InfoField, Answer> {
        let field = self.standard()?.info_field(index).ok_or(refusal(8))?;
        Ok(self.info_values(field))
    }

    /// The values of an info field; those with an accessor are taken from it.
    fn info_values(&self, field: &RustInfoField) -> InfoField {
        let inner = field.as_ref();
        assert_eq!(inner[0] & 1 != 0, field.is_constructed_dir());
        assert_eq!(inner[0] & 2 != 0, field.is_peering());
        InfoField {
            answer: ACCEPTED,
            path: self.record(),
            start: offset(self.bytes, inner),
            flags: inner[0],
            reserved: inner[1],
            accumulator: u16::from_be_bytes([inner[2], inner[3]]),
            timestamp: u32::try_from(field.timestamp().timestamp()).expect("32 bits"),
        }
    }

    /// Hop field `index`.
    pub fn hop_field(&self, index: usize) -> HopField {
        answered(self.try_hop_field(index))
    }

    fn try_hop_field(&self, index: usize) -> Result<HopField, Answer> {
        let field = self.standard()?.hop_fields().nth(index).ok_or(refusal(8))?;
        Ok(self.hop_values(field))
    }

    /// The values of a hop field; those with an accessor are taken from it.
    pub fn hop_values(&self, field: &RustHopField) -> HopField {
        let inner = field.as_ref();
        assert_eq!(inner[0] & 2 != 0, field.is_cons_ingress_router_alert());
        assert_eq!(inner[0] & 1 != 0, field.is_cons_egress_router_alert());
        HopField {
            answer: ACCEPTED,
            path: self.record(),
            start: offset(self.bytes, inner),
            flags: inner[0],
            exp_time: (field.expiry_offset().as_millis() / 337_500 - 1) as u8,
            cons_ingress: field.cons_ingress_interface().map_or(0, |id| id.get()),
            cons_egress: field.cons_egress_interface().map_or(0, |id| id.get()),
            mac: inner[6..12].try_into().expect("6 bytes"),
        }
    }

    /// Segment `index`.
    pub fn segment(&self, index: usize) -> Segment {
        answered(self.try_segment(index))
    }

    fn try_segment(&self, index: usize) -> Result<Segment, Answer> {
        let segment = self.rust_segment(index)?;
        let first = segment.hop_fields().next().expect("a hop field");
        let start = offset(self.bytes, segment.info_field().as_ref());
        Ok(Segment {
            answer: ACCEPTED,
            path: self.record(),
            info_field: Part { start, len: segment.info_field().as_ref().len() },
            hop_fields: Part { start: offset(self.bytes, first.as_ref()), len: 12 * segment.hop_fields().len() },
        })
    }

    /// The Rust's segment `index`, or 8.
    pub fn rust_segment(&self, index: usize) -> Result<RustSegment<'_>, Answer> {
        self.standard()?.segment(index).ok_or(refusal(8))
    }

    /// When segment `index` expires.
    pub fn segment_expiry(&self, index: usize) -> Expiry {
        let ms = |segment: RustSegment| u64::try_from(segment.expiry_time().timestamp_millis()).expect("after 1970");
        answered(self.rust_segment(index).map(|segment| self.expiring(ms(segment))))
    }

    /// When the path expires.
    pub fn expiry(&self) -> Expiry {
        answered(self.standard().map(|path| self.expiring(self.expiry_of(path))))
    }

    fn expiring(&self, ms: u64) -> Expiry {
        Expiry { answer: ACCEPTED, path: self.record(), ms }
    }

    /// The Rust's expiry less now: added by document 01, as is its bound on now.
    pub fn time_left(&self, now: u64) -> Expected<TimeLeft> {
        let expiry = self.expiry();
        if expiry.answer != ACCEPTED {
            return (TimeLeft::refused(expiry.answer), self.source());
        }
        if now > LATEST_NOW {
            return (TimeLeft::refused(refusal(10)), Source::Model);
        }
        (TimeLeft { answer: ACCEPTED, path: expiry.path, ms: expiry.ms as i64 - now as i64 }, Source::Model)
    }

    /// How many interfaces there are; of a peering path request 2026-03's, and not the Rust's.
    pub fn interfaces_count(&self) -> Expected<InterfaceCount> {
        if let Some(interfaces) = model::peering_interfaces_count(self, self.bytes) {
            return (interfaces, Source::Excepted(Exception::PeeringInterfaces));
        }
        let interfaces = self.standard().map(|path| InterfaceCount {
            answer: ACCEPTED,
            path: self.record(),
            count: path.meta_header().interfaces_count(),
        });
        (answered(interfaces), self.source())
    }

    /// Interface `index`: the hop field by the Rust; even is its egress, odd its ingress. Of a peering path request
    /// 2026-03's, whatever the index.
    pub fn interface(&self, index: usize) -> Expected<Interface> {
        if let Some(interface) = model::peering_interface(self, self.bytes, index) {
            return (interface, Source::Excepted(Exception::PeeringInterfaces));
        }
        let path = match self.standard() {
            Ok(path) => path,
            Err(answer) => return (Interface::refused(answer), self.source()),
        };
        if index >= path.meta_header().interfaces_count() {
            return (Interface::refused(refusal(8)), Source::Excepted(Exception::InterfaceBeyondCount));
        }
        let hop_field = path.meta_header().hop_field_index_for_interface(index);
        let field = path.hop_fields().nth(hop_field).expect("a hop field below the count");
        let info = self.info_of(hop_field);
        let id = if index % 2 == 0 { field.egress_interface(info) } else { field.ingress_interface(info) };
        let id = id.map_or(0, |id| id.get());
        (Interface { answer: ACCEPTED, path: self.record(), hop_field, id }, Source::Rust)
    }

    /// The info field of the segment that a hop field stands in.
    fn info_of(&self, hop_field: usize) -> &RustInfoField {
        let path = self.standard().expect("a standard path");
        let mut before = 0;
        for (index, segment) in path.segments().enumerate() {
            before += segment.hop_fields().len();
            if hop_field < before {
                return path.info_field(index).expect("the segment's info field");
            }
        }
        panic!("hop field {hop_field} is in no segment")
    }

    /// An alert flag set or cleared; `after` holds the bytes and gets what they are to be.
    pub fn set_alert(&self, index: usize, is_ingress: bool, on: bool, after: &mut [u8]) -> PathAnswer {
        answered(self.try_set_alert(index, is_ingress, on, after))
    }

    fn try_set_alert(&self, index: usize, is_ingress: bool, on: bool, after: &mut [u8]) -> Result<PathAnswer, Answer> {
        let path = self.standard()?;
        let length = path.raw().len();
        let mut copy = path.copy_to_slice(&mut after[..length]);
        let field = copy.hop_field_mut(index).ok_or(refusal(8))?;
        if is_ingress {
            field.set_cons_ingress_router_alert(on);
        } else {
            field.set_cons_egress_router_alert(on);
        }
        Ok(PathAnswer { answer: ACCEPTED, path: record_with(copy.meta_header(), expiry_of(&copy)) })
    }

    /// The path copied to the front of `dst`. The Rust has no copy that cuts the front: it is seen to panic at a longer
    /// destination, whose front is to be what it writes into as many bytes as the path has.
    pub fn copy_path(&self, dst: &mut [u8]) -> Expected<WrittenPath> {
        let path = match self.with_room(dst, &[copied]) {
            Ok(path) => path,
            Err(expected) => return expected,
        };
        if path.is_empty() || dst.len() == path.raw().len() {
            return (copied(path, dst), Source::Rust);
        }
        see_panic(copied, path, dst);
        (copied(path, &mut dst[..path.raw().len()]), Source::Excepted(Exception::PanickingSize))
    }

    /// The path turned into the front of `dst`, which the Rust cuts itself; at the exact size its two turns agree.
    pub fn reverse_path(&self, dst: &mut [u8]) -> Expected<WrittenPath> {
        let path = match self.with_room(dst, &[turned, turned_into_front]) {
            Ok(path) => path,
            Err(expected) => return expected,
        };
        if dst.len() > path.raw().len() {
            return (turned_into_front(path, dst), Source::Rust);
        }
        let mut front = dst.to_vec();
        let expected = turned(path, dst);
        assert_eq!(turned_into_front(path, &mut front), expected, "the Rust's two turns differ");
        assert_eq!(front, dst, "the Rust's two turns write other bytes");
        (expected, Source::Rust)
    }

    /// The path, where it was read and the destination has room for it. Where it has not, these forms of the Rust are
    /// seen to panic, and nothing is to change.
    fn with_room(&self, dst: &[u8], forms: &[Form]) -> Result<&DataplanePath, Expected<WrittenPath>> {
        let path = self.read.as_ref().map_err(|answer| (WrittenPath::refused(*answer), Source::Rust))?;
        if dst.len() >= path.raw().len() {
            return Ok(path);
        }
        forms.iter().for_each(|form| see_panic(*form, path, dst));
        Err((WrittenPath::refused(refusal(9)), Source::Excepted(Exception::PanickingSize)))
    }
}

/// A form in which the Rust writes a path to a destination.
type Form = fn(&DataplanePath, &mut [u8]) -> WrittenPath;

/// The Rust's copy, into just as many bytes as the path has.
fn copied(path: &DataplanePath, dst: &mut [u8]) -> WrittenPath {
    written(&path.copy_to_slice(dst))
}

/// The Rust's turn into just as many bytes as the path has.
fn turned(path: &DataplanePath, dst: &mut [u8]) -> WrittenPath {
    written(&path.reverse_to_slice(dst))
}

/// The Rust's turn that cuts the front of a destination itself; the networks at the path's ends are turned beside it.
fn turned_into_front(path: &DataplanePath, dst: &mut [u8]) -> WrittenPath {
    let ends = ByEndpoint::with_cloned(IsdAsn::WILDCARD);
    written(&RustPath::new(path.clone(), ends, None).reverse_to_slice(dst).dataplane_path)
}

/// Sees a form of the Rust panic at a destination of this size.
fn see_panic(form: Form, path: &DataplanePath, dst: &[u8]) {
    let mut lost = dst.to_vec();
    assert!(panics(|| _ = form(path, &mut lost)), "the Rust took a destination of another size");
}

/// A hop field's ingress and egress by direction, and its expiry, by the Rust's own calls.
pub fn derived(field: &RustHopField, info: &RustInfoField) -> (u16, u16, i64) {
    let ingress = field.ingress_interface(info).map_or(0, |id| id.get());
    let egress = field.egress_interface(info).map_or(0, |id| id.get());
    (ingress, egress, field.expiry_time(info).timestamp_millis())
}

/// Accepted, with the record and the length of the path that the Rust has written.
fn written(path: &DataplanePath<&mut [u8]>) -> WrittenPath {
    WrittenPath { answer: ACCEPTED, path: record(path), length: path.raw().len() }
}

/// The answer, or its refusal in the same shape.
fn answered<T: Refused>(result: Result<T, Answer>) -> T {
    result.unwrap_or_else(T::refused)
}
