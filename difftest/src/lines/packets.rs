//! Lines on packets and header writing.

use scion_proto::{Answer, Ends, Headers, Host, Packet};

use scion_rs::address::{HostAddr, IsdAsn, ScionAddr};
use scion_rs::packet::{AddressHeader, ByEndpoint};
use scion_rs::wire_encoding::MaybeEncoded;

use super::Line;
use super::paths::add_record;
use crate::model;
use crate::oracle::{headers, packet, write};

/// Adds a host of an address: kind, service number, all 16 bytes.
fn add_host(line: &mut Line, host: &Host) {
    line.add(host.kind).add(host.service).add_bytes(&host.bytes);
}

/// Adds a host of an address header: as that of an address, and a service's padding.
fn add_padded_host(line: &mut Line, host: &Host) {
    add_host(line, host);
    line.add(host.padding);
}

/// The host of an address in words k to k + 2: kind, service number, at most 16 bytes.
fn host_at(line: &Line, k: usize) -> Host {
    let mut host = Host { kind: line.byte(k), service: line.number(k + 1) as u16, ..Host::default() };
    let bytes = line.bytes(k + 2);
    host.bytes[..bytes.len()].copy_from_slice(&bytes);
    host
}

/// The host of an address header in words k to k + 3: as that of an address, and a service's padding.
fn padded_host_at(line: &Line, k: usize) -> Host {
    Host { padding: line.number(k + 3) as u16, ..host_at(line, k) }
}

/// The address header in ten words from word k on: both networks, then both hosts, the destination first.
fn ends_at(line: &Line, k: usize) -> Ends {
    Ends {
        destination_ia: line.number(k),
        source_ia: line.number(k + 1),
        destination: padded_host_at(line, k + 2),
        source: padded_host_at(line, k + 6),
    }
}

/// Adds both networks and both hosts of an address header.
fn add_ends(line: &mut Line, ends: &Ends) {
    line.add(ends.destination_ia).add(ends.source_ia);
    add_padded_host(line, &ends.destination);
    add_padded_host(line, &ends.source);
}

/// Adds a packet: number, value, common header, networks, hosts, record, and path and payload, each with where it starts.
fn add_packet(line: &mut Line, packet: &Packet, bytes: &[u8]) {
    line.add(packet.answer.number).add(packet.answer.value);
    line.add(packet.version).add(packet.traffic_class).add(packet.flow_id).add(packet.next_header);
    line.add(packet.header_length_factor).add(packet.payload_length).add(packet.path_type);
    line.add(packet.destination.kind).add(packet.source.kind).add(packet.reserved);
    line.add(packet.destination_ia).add(packet.source_ia);
    add_padded_host(line, &packet.destination);
    add_padded_host(line, &packet.source);
    add_record(line, packet.path);
    for part in [packet.path_part, packet.payload_part] {
        line.add(part.start).add_bytes(part.of(bytes));
    }
}

/// `packet B`: a packet by the refusing reading.
fn read(line: &mut Line) {
    let bytes = line.bytes(1);
    let (packet, source) = packet::unless_cut(packet::read_packet(&bytes), &bytes);
    line.source = source;
    add_packet(line, &packet, &bytes);
}

/// `capture B`: a packet by the capture reading, and whether it is short.
fn capture(line: &mut Line) {
    let bytes = line.bytes(1);
    let capture = model::capture(packet::read_packet(&bytes), &bytes);
    add_packet(line, &capture.packet, &bytes);
    line.add(capture.is_short);
}

/// `new next payload flow type E P D`: the factor of headers made for ends E and path bytes P, and the headers written to D.
fn new(line: &mut Line) {
    let (ends, path, mut dst) = (ends_at(line, 5), line.bytes(15), line.bytes(16));
    let (made, _) = write::new_headers(&ends, line.byte(4), &path, line.byte(1), line.index(2), line.number(3) as u32);
    let (answer, source) = write::write_new_headers(&ends, &made, &path, &mut dst);
    line.source = source;
    line.add(made.header_length_factor).add(answer.number).add_bytes(&dst);
}

/// `write version class flow next factor payload type reserved E P D`: the length of headers, and the headers written to D.
fn write_headers(line: &mut Line) {
    let ends = ends_at(line, 9);
    let headers = Headers {
        version: line.byte(1),
        traffic_class: line.byte(2),
        flow_id: line.number(3) as u32,
        next_header: line.byte(4),
        header_length_factor: line.index(5),
        payload_length: line.index(6),
        path_type: line.byte(7),
        reserved: line.number(8) as u16,
        destination_ia: ends.destination_ia,
        destination: ends.destination,
        source_ia: ends.source_ia,
        source: ends.source,
    };
    let (path, mut dst) = (line.bytes(19), line.bytes(20));
    let (answer, source) = write::write_headers(&headers, &path, &mut dst);
    line.source = source;
    line.add(write::headers_length(&headers, &path).0).add(answer.number).add_bytes(&dst);
}

/// Adds a number, a value, and a common header's fields.
fn add_common(line: &mut Line, answer: Answer, fields: headers::Common) {
    line.add(answer.number).add(answer.value);
    line.add(fields.version).add(fields.traffic_class).add(fields.flow_id).add(fields.next_header);
    line.add(fields.header_length_factor).add(fields.payload_length).add(fields.path_type);
    line.add(fields.destination_kind).add(fields.source_kind).add(fields.reserved);
}

/// `common B`: the fields of a common header, and the lengths of all headers, of those after it, and of the payload.
fn common(line: &mut Line) {
    let bytes = line.bytes(1);
    let (answer, fields) = headers::read_common(&bytes);
    add_common(line, answer, fields);
    for length in headers::lengths(&bytes) {
        line.add(length);
    }
}

/// `putcommon version class flow next factor payload type K L reserved D`: a common header written to D.
fn put_common(line: &mut Line) {
    let fields = headers::Common {
        version: line.byte(1),
        traffic_class: line.byte(2),
        flow_id: line.number(3) as u32,
        next_header: line.byte(4),
        header_length_factor: line.index(5),
        payload_length: line.index(6),
        path_type: line.byte(7),
        destination_kind: line.byte(8),
        source_kind: line.byte(9),
        reserved: line.number(10) as u16,
    };
    let mut dst = line.bytes(11);
    let (answer, source) = headers::write_common(&fields, &mut dst);
    line.source = source;
    line.add(answer.number).add_bytes(&dst);
}

/// Adds an address: its network, its host's kind, a service's number, all 16 bytes.
fn add_scion_address(line: &mut Line, address: &ScionAddr) {
    line.add(address.isd_asn().to_u64());
    add_host(line, &packet::host(&MaybeEncoded::Decoded(address.host()), address.address_info()));
}

/// Adds whether an end's host has a name, and then its address; one of zeros where it has none.
fn add_end(line: &mut Line, end: Option<ScionAddr>) {
    let zero = ScionAddr::new(IsdAsn(0), HostAddr::V4([0; 4].into()));
    line.add_flag(end.is_some());
    add_scion_address(line, &end.unwrap_or(zero));
}

/// `address K L B`: the networks and hosts of kinds K and L, how many bytes they take, and each end's address where its host
/// has a name; the zero header of a refusal has two IPv4 hosts.
fn address(line: &mut Line) {
    let (bytes, kinds) = (line.bytes(3), (line.byte(1), line.byte(2)));
    let (answer, ends, length) = headers::read_address(&bytes, kinds.0, kinds.1);
    line.add(answer.number).add(answer.value);
    add_ends(line, &ends);
    line.add(length);
    for end in headers::named_ends(&bytes, kinds.0, kinds.1) {
        add_end(line, end);
    }
}

/// The address of a network and of the host in words k to k + 2, which has a name.
fn scion_address_at(line: &Line, ia: u64, k: usize) -> Option<ScionAddr> {
    Some(ScionAddr::new(IsdAsn(ia), write::known_host(&host_at(line, k))?))
}

/// `endhost n H m K`: the address of host H in network n; with network m set; and then with host K set.
fn endhost(line: &mut Line) -> bool {
    let made = scion_address_at(line, line.number(1), 2);
    let (Some(mut address), Some(other)) = (made, scion_address_at(line, 0, 6)) else { return false };
    add_scion_address(line, &address);
    address.set_isd_asn(IsdAsn(line.number(5)));
    add_scion_address(line, &address);
    address.set_host(other.host());
    add_scion_address(line, &address);
    true
}

/// `newaddr n m H K D`: the length of the address header made of host H in network n and host K in network m, which have
/// names, and the header written to D.
fn new_address(line: &mut Line) -> bool {
    let destination = scion_address_at(line, line.number(1), 3);
    let (Some(destination), Some(source)) = (destination, scion_address_at(line, line.number(2), 6)) else {
        return false;
    };
    let ends = ByEndpoint { source, destination };
    let header = AddressHeader::new(ends.map(ScionAddr::isd_asn), ends.map(ScionAddr::host));
    assert_eq!(header, AddressHeader::from(ends));
    let mut dst = line.bytes(9);
    let (length, answer, source) = headers::length_and_write(&header, &mut dst);
    line.source = source;
    line.add(length).add(answer.number).add_bytes(&dst);
    true
}

/// `putaddress E D`: networks and hosts written to D.
fn put_address(line: &mut Line) {
    let (ends, mut dst) = (ends_at(line, 1), line.bytes(11));
    let (answer, source) = headers::write_address(&ends, &mut dst);
    line.source = source;
    line.add(answer.number).add_bytes(&dst);
}

/// Answers a line of this file; whether it is one.
pub fn answer(line: &mut Line) -> bool {
    match line.words[0] {
        "packet" => read(line),
        "capture" => capture(line),
        "common" => common(line),
        "putcommon" => put_common(line),
        // The Rust has no host kinds of more than 4 bits.
        "address" if line.number(1) < 16 && line.number(2) < 16 => address(line),
        "putaddress" => put_address(line),
        "endhost" => return endhost(line),
        "newaddr" => return new_address(line),
        "new" => new(line),
        "write" => write_headers(line),
        _ => return false,
    }
    true
}
