//! Lines on meta headers, fields, bounded numbers and addresses, which the library's C interface does not have.

use bytes::{Buf, BufMut};
use scion_rs::address::{Asn, HostAddr, HostType, Isd, IsdAsn, ServiceAddr};
use scion_rs::packet::{AddressInfo, CommonHeader, FlowId, Version};
use scion_rs::path::standard::{
    HopField, HopFieldIndex, InfoField, InfoFieldIndex, PathMetaHeader, PathMetaReserved, SegmentLength,
};
use scion_rs::path::{DataplanePath, PathType};
use scion_rs::wire_encoding::{MaybeEncoded, WireDecode, WireEncode};

use super::Line;
use super::paths::add_record;
use crate::oracle::path::Oracle;
use crate::oracle::{number_of, panics, record_with, refusal};
use crate::tally::{Exception, Source};

/// The meta header of six numbers; none where one is too wide.
fn header(numbers: [u8; 6]) -> Option<PathMetaHeader> {
    let [info, hop, reserved, lengths @ ..] = numbers;
    let [first, second, third] = lengths;
    Some(PathMetaHeader {
        current_info_field: InfoFieldIndex::new(info)?,
        current_hop_field: HopFieldIndex::new(hop)?,
        reserved: PathMetaReserved::new(reserved)?,
        segment_lengths: [SegmentLength::new(first)?, SegmentLength::new(second)?, SegmentLength::new(third)?],
    })
}

/// The header in words 1 to 6.
fn header_at(line: &Line) -> Option<PathMetaHeader> {
    header([1, 2, 3, 4, 5, 6].map(|k| line.byte(k)))
}

/// The header of the lengths in words 1 to 3; none where a length is too wide.
fn lengths_at(line: &Line) -> Option<PathMetaHeader> {
    header([0, 0, 0, line.byte(1), line.byte(2), line.byte(3)])
}

/// `meta B`.
fn meta(line: &mut Line) {
    let bytes = line.bytes(1);
    match PathMetaHeader::decode(&mut &bytes[..]) {
        Ok(meta) => {
            line.add(0).add(0);
            add_record(line, record_with(&meta, 0));
        }
        Err(error) => {
            let answer = number_of(error);
            line.add(answer.number).add(answer.value);
            add_record(line, Default::default());
        }
    }
}

/// `firsts B`: the number for every first byte.
fn firsts(line: &mut Line) {
    let mut bytes = line.bytes(1);
    for first in 0..=255 {
        bytes[0] = first;
        let answer = PathMetaHeader::decode(&mut &bytes[..]).map_or_else(number_of, |_| refusal(0));
        line.add(answer.number);
    }
}

/// `counts C H R a b c`, for headers that are read: two of its numbers are private to the source otherwise.
fn counts(line: &mut Line) -> bool {
    let Some(meta) = header_at(line) else { return false };
    let mut bytes = meta.as_u32().to_be_bytes().to_vec();
    bytes.resize(2400, 0);
    let oracle = Oracle::new(1, &bytes);
    let Ok(path) = oracle.standard() else { return false };
    let turned = path.to_reversed();
    line.add(meta.info_fields_count()).add(meta.hop_fields_count()).add(meta.interfaces_count());
    line.add(path.raw().len()).add(meta.info_field_index()).add(0).add(meta.as_u32());
    for length in turned.meta_header().segment_lengths {
        line.add(length.get());
    }
    true
}

/// `encode C H R a b c B`: a longer destination gets 9, as document 01 has it.
fn encode(line: &mut Line) {
    let mut dst = line.bytes(7);
    let number = match header_at(line) {
        None => 10,
        Some(_) if dst.len() > 4 => {
            line.except(Exception::LongerEncoderDestination);
            9
        }
        Some(meta) => meta.encode_to(&mut &mut dst[..]).map_or(9, |()| 0),
    };
    line.add(number).add_bytes(&dst);
}

/// `ifhop a b c i`: 8 from the count on, as document 01 has it.
fn ifhop(line: &mut Line) -> bool {
    let Some(meta) = lengths_at(line) else { return false };
    let index = line.index(4);
    if index < meta.interfaces_count() {
        line.add(0).add(meta.hop_field_index_for_interface(index));
    } else {
        line.except(Exception::InterfaceBeyondCount);
        line.add(8).add(0);
    }
    true
}

/// An offset by the Rust, where there is such a field. Where there is none it has to be past the path, and where the sum does
/// not fit 64 bits the debug build has to panic: this is what the exception says.
fn offset_at(is_there: bool, sum: u128, offset: impl Fn() -> usize) -> Option<usize> {
    if is_there {
        return Some(offset());
    }
    let has_panicked = panics(|| assert_eq!(offset(), sum as usize, "the sum, or what 64 bits keep of it"));
    assert_eq!(has_panicked, sum >= 1 << 64 && cfg!(debug_assertions), "the Rust at an offset beyond the count");
    None
}

/// `offset a b c i`: 8 where there is no such field, as document 01 has it.
fn offset(line: &mut Line) -> bool {
    let Some(meta) = lengths_at(line) else { return false };
    let index = line.index(4);
    let (infos, hops) = (meta.info_fields_count(), meta.hop_fields_count());
    let info = offset_at(index < infos, 4 + 8 * index as u128, || PathMetaHeader::info_field_offset(index));
    let start = 4 + 8 * infos as u128;
    let hop = offset_at(index < hops, start + 12 * index as u128, || meta.hop_field_offset(index));
    for at in [info, hop] {
        if at.is_none() {
            line.except(Exception::OffsetBeyondCount);
        }
        line.add(if at.is_some() { 0 } else { 8 }).add(at.unwrap_or(0));
    }
    true
}

/// Calls on meta headers.
fn headers(line: &mut Line) -> bool {
    match line.words[0] {
        "meta" => meta(line),
        "firsts" => firsts(line),
        "counts" => return counts(line),
        "encode" => encode(line),
        "ifhop" => return ifhop(line),
        "offset" => return offset(line),
        _ => return false,
    }
    true
}

/// `info B`: 9 where the Rust panics at the size.
fn info(line: &mut Line) {
    let bytes = line.bytes(1);
    if panics(|| _ = InfoField::new(&bytes)) {
        line.except(Exception::PanickingSize);
        line.add("9 0 0 0 0 0 0");
        return;
    }
    let field = InfoField::new(&bytes);
    line.add(0).add_flag(field.is_constructed_dir()).add_flag(field.is_peering()).add(bytes[1]);
    line.add(u16::from_be_bytes([bytes[2], bytes[3]])).add(field.timestamp().timestamp()).add(bytes[0]);
}

/// `hop B`: 9 where the Rust panics at the size.
fn hop(line: &mut Line) {
    let bytes = line.bytes(1);
    if panics(|| _ = HopField::new(&bytes)) {
        line.except(Exception::PanickingSize);
        line.add("9 0 0 0 0 0 000000000000 337500");
        return;
    }
    let field = HopField::new(&bytes);
    let ids = [field.cons_ingress_interface(), field.cons_egress_interface()];
    line.add(0).add_flag(field.is_cons_ingress_router_alert()).add_flag(field.is_cons_egress_router_alert());
    line.add(bytes[1]);
    for id in ids {
        line.add(id.map_or(0, |id| id.get()));
    }
    line.add_bytes(&bytes[6..]).add(field.expiry_offset().as_millis());
}

/// A flag byte with the direction set or cleared.
fn directed(flags: u8, on: bool) -> u8 {
    let mut bytes = [flags, 0, 0, 0, 0, 0, 0, 0];
    InfoField::new_mut(&mut bytes).set_constructed_dir(on);
    bytes[0]
}

/// A flag byte with an alert flag set or cleared.
fn flagged(flags: u8, is_ingress: bool, on: bool) -> u8 {
    let mut bytes = [0; 12];
    bytes[0] = flags;
    let field = HopField::new_mut(&mut bytes);
    if is_ingress {
        field.set_cons_ingress_router_alert(on);
    } else {
        field.set_cons_egress_router_alert(on);
    }
    bytes[0]
}

/// Calls on every flag byte.
fn flags(line: &mut Line) -> bool {
    let name = line.words[0];
    if !["infobits", "hopbits", "infodirs", "hopalerts"].contains(&name) {
        return false;
    }
    let (first, second) = (line.flag(1), line.flag(2));
    let one = |flags: u8| {
        let info = [flags, 0, 0, 0, 0, 0, 0, 0];
        let hop = [flags, 0, 0, 0, 0, 0, 0, 0, 0, 0, 0, 0];
        let (info, hop) = (InfoField::new(&info), HopField::new(&hop));
        match (name, first) {
            ("infobits", false) => u8::from(info.is_constructed_dir()),
            ("infobits", true) => u8::from(info.is_peering()),
            ("hopbits", false) => u8::from(hop.is_cons_egress_router_alert()),
            ("hopbits", true) => u8::from(hop.is_cons_ingress_router_alert()),
            ("infodirs", on) => directed(flags, on),
            (_, is_ingress) => flagged(flags, is_ingress, second),
        }
    };
    for byte in 0..=255 {
        line.add(one(byte));
    }
    true
}

/// `sides B D`: the interfaces by direction, and the expiry.
fn sides(line: &mut Line) {
    let (info, hop) = (line.bytes(1), line.bytes(2));
    let (info, hop) = (InfoField::new(&info), HopField::new(&hop));
    for id in [hop.ingress_interface(info), hop.egress_interface(info)] {
        line.add(id.map_or(0, |id| id.get()));
    }
    line.add(hop.expiry_time(info).timestamp_millis());
}

/// `expiry t e`.
fn expiry(line: &mut Line) {
    let mut info = [0; 8];
    info[4..].copy_from_slice(&(line.number(1) as u32).to_be_bytes());
    let mut hop = [0; 12];
    hop[1] = line.byte(2);
    let ms = HopField::new(&hop).expiry_time(InfoField::new(&info)).timestamp_millis();
    line.add(ms);
}

/// Calls on info fields and hop fields.
fn fields(line: &mut Line) -> bool {
    match line.words[0] {
        "info" => info(line),
        "hop" => hop(line),
        "infodir" => {
            let bytes = line.bytes(1);
            if bytes.len() != 8 {
                return false;
            }
            let flags = directed(bytes[0], line.flag(2));
            line.add(flags);
        }
        "hopflags" => {
            let bytes = line.bytes(1);
            if bytes.len() != 12 {
                return false;
            }
            let flags = flagged(bytes[0], line.flag(2), line.flag(3));
            line.add(flags);
        }
        "sides" => {
            if line.bytes(1).len() != 8 || line.bytes(2).len() != 12 {
                return false;
            }
            sides(line);
        }
        "expiry" => expiry(line),
        _ => return flags(line),
    }
    true
}

/// `get w B at`: 1 where the Rust's reader panics.
fn get(line: &mut Line) {
    let (width, bytes, at) = (line.number(1), line.bytes(2), line.index(3));
    let mut value = 0;
    let is_short = panics(|| {
        let mut rest = &bytes[at..];
        value = match width {
            2 => rest.get_u16().into(),
            4 => rest.get_u32().into(),
            _ => rest.get_u64(),
        };
    });
    if is_short {
        line.except(Exception::PanickingSize);
    }
    line.add(u8::from(is_short)).add(value);
}

/// `put w B at n`: 9 where the Rust's writer panics.
fn put(line: &mut Line) {
    let (width, mut bytes, at, number) = (line.number(1), line.bytes(2), line.index(3), line.number(4));
    let is_short = panics(|| {
        let mut rest = &mut bytes[at..];
        match width {
            2 => rest.put_u16(number as u16),
            4 => rest.put_u32(number as u32),
            _ => rest.put_u64(number),
        }
    });
    if is_short {
        line.except(Exception::PanickingSize);
    }
    line.add(if is_short { 9 } else { 0 }).add_bytes(&bytes);
}

/// `bounded k n`: 10 where the Rust makes no number.
fn bounded(line: &mut Line) {
    let number = line.number(2);
    let value = match line.number(1) {
        2 => InfoFieldIndex::new(number as u8).map(|value| u64::from(value.get())),
        4 => Version::new(number as u8).map(|value| u64::from(value.get())),
        6 => HopFieldIndex::new(number as u8).map(|value| u64::from(value.get())),
        _ => FlowId::new(number as u32).map(|value| u64::from(value.get())),
    };
    line.add(if value.is_some() { 0 } else { 10 }).add(value.unwrap_or(0));
}

/// `isdasn n`.
fn isdasn(line: &mut Line) {
    let ia = IsdAsn(line.number(1));
    line.add(ia.isd().to_u16()).add(ia.asn().to_u64()).add_flag(ia.is_wildcard());
}

/// `newisdasn i a`: an AS number of more than 48 bits gets 10, for the Rust's file of AS numbers is not at hand.
fn new_isdasn(line: &mut Line) {
    let (isd, asn) = (line.number(1) as u16, line.number(2));
    if asn >> Asn::BITS != 0 {
        line.source = Source::Model;
        line.add(10).add(0);
        return;
    }
    line.add(0).add(IsdAsn::new(Isd::new(isd), Asn::new(asn)).to_u64());
}

/// `service n`.
fn service(line: &mut Line) {
    let service = ServiceAddr(line.number(1) as u16);
    line.add_flag(service.is_multicast()).add_flag(service.is_anycast());
    line.add(service.multicast().0).add(service.anycast().0);
}

/// `hosttype n` and `hostkind n`.
fn host(line: &mut Line) {
    let known = HostType::from_byte(line.byte(1));
    if line.words[0] == "hosttype" {
        line.add_flag(known.is_some()).add(known.map_or(0, u8::from));
        return;
    }
    let kind = known.and_then(AddressInfo::from_host_type);
    line.add_flag(kind.is_some()).add(kind.map_or(0, |kind| kind.get()));
}

/// `hostlength k`: the Rust has no host kinds of more than 4 bits.
fn hostlength(line: &mut Line) -> bool {
    let Some(kind) = AddressInfo::new(line.byte(1)) else { return false };
    line.add(kind.address_length());
    let MaybeEncoded::Decoded(named) = kind.host_type() else {
        line.add(0).add(0);
        return true;
    };
    let host = match named {
        HostType::Ipv4 => HostAddr::V4([0; 4].into()),
        HostType::Ipv6 => HostAddr::V6([0; 16].into()),
        _ => HostAddr::Svc(ServiceAddr(0)),
    };
    line.add(u8::from(named)).add(AddressInfo::for_host(&host).get());
    true
}

/// `constant k`.
fn constant(line: &mut Line) {
    let bounds = |bits: u32, most: u64| (u64::from(bits), most);
    let sizes = |first: usize, second: usize| (first as u64, second as u64);
    let (first, second) = match line.number(1) {
        0 => bounds(InfoFieldIndex::BITS, InfoFieldIndex::MAX.get().into()),
        1 => bounds(Version::BITS, Version::MAX.get().into()),
        2 => bounds(HopFieldIndex::BITS, HopFieldIndex::MAX.get().into()),
        3 => bounds(FlowId::BITS, FlowId::MAX.get().into()),
        4 => sizes(PathMetaHeader::LENGTH, <DataplanePath>::MAX_LEN),
        5 => sizes(InfoField::LENGTH, HopField::LENGTH),
        6 => (InfoField::CONSTRUCTION_DIRECTION_FLAG.into(), InfoField::PEERING_FLAG.into()),
        7 => sizes(CommonHeader::LENGTH, CommonHeader::HEADER_LENGTH_MULTIPLICAND),
        8 => sizes(CommonHeader::MAX_HEADER_LENGTH, AddressInfo::MAX_ADDRESS_BYTES),
        9 => (u8::from(PathType::Empty).into(), u8::from(PathType::Scion).into()),
        10 => (IsdAsn::WILDCARD.to_u64(), IsdAsn::MAX.to_u64()),
        11 => bounds(IsdAsn::BITS, Asn::BITS.into()),
        12 => (ServiceAddr::DAEMON.0.into(), ServiceAddr::CONTROL.0.into()),
        13 => (ServiceAddr::WILDCARD.0.into(), 0),
        _ => (0, 0),
    };
    line.add(first).add(second);
}

/// Calls on numbers and addresses.
fn values(line: &mut Line) -> bool {
    match line.words[0] {
        "get" => get(line),
        "put" => put(line),
        "bounded" => bounded(line),
        "isdasn" => isdasn(line),
        "newisdasn" => new_isdasn(line),
        "service" => service(line),
        "hosttype" | "hostkind" => host(line),
        "hostlength" => return hostlength(line),
        "constant" => constant(line),
        _ => return false,
    }
    true
}

/// Answers a line of this file; whether it is one.
pub fn answer(line: &mut Line) -> bool {
    headers(line) || fields(line) || values(line)
}
