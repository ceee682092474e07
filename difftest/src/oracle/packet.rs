//! Packets: split by the Rust; the paddings of services, which it drops, are by request 2026-05's text, and the refusal of
//! packets that are cut is by request 2026-06's.

use scion_proto::{Host, Packet, Part};
use scion_rs::address::HostAddr;
use scion_rs::packet::{AddressHeader, AddressInfo, ByEndpoint, CommonHeader, RawHostAddress, ScionPacketRaw};
use scion_rs::wire_encoding::{MaybeEncoded, WireDecode, WireEncode};

use super::path::Expected;
use super::{ACCEPTED, Refused, lend, number_of, offset, record, refusal};
use crate::model;
use crate::tally::{Exception, Source};

/// How many bytes the two networks take that begin an address header.
const NETWORKS_LENGTH: usize = 16;

/// A host as the Rust holds it.
pub type RustHost = MaybeEncoded<HostAddr, (AddressInfo, RawHostAddress)>;

/// The Rust's packet from bytes, and document 01's answer.
pub fn read_packet(bytes: &[u8]) -> Packet {
    match ScionPacketRaw::decode(&mut lend(bytes)) {
        Ok(packet) => values(bytes, &packet),
        Err(error) => Packet::refused(number_of(error)),
    }
}

/// What the refusing reading answers, where the Rust reads this packet from the bytes: the same, or 1 where they are cut.
pub fn unless_cut(packet: Packet, bytes: &[u8]) -> Expected<Packet> {
    if model::is_cut(bytes) {
        return (Packet::refused(refusal(1)), Source::Excepted(Exception::ShortHeader));
    }
    (packet, Source::Rust)
}

/// Whether the Rust reads the same from a slice as from its byte string.
pub fn same_from_slice(bytes: &[u8]) -> bool {
    ScionPacketRaw::decode(&mut &bytes[..]) == ScionPacketRaw::decode(&mut lend(bytes))
}

/// Every value of a packet's headers, and where its path and payload lie.
fn values(bytes: &[u8], packet: &ScionPacketRaw) -> Packet {
    let common = &packet.headers.common;
    let address = &packet.headers.address;
    let path = &packet.headers.path;
    let path_start = CommonHeader::LENGTH + address.encoded_length();
    let payload_start = common.header_length().min(bytes.len());
    let [destination, source] = padded_hosts(address, common.address_info, &bytes[CommonHeader::LENGTH..]);
    Packet {
        answer: ACCEPTED,
        path: record(path),
        version: common.version.get(),
        traffic_class: common.traffic_class,
        next_header: common.next_header,
        header_length_factor: common.header_length_factor.get(),
        path_type: common.path_type.into(),
        payload_length: common.payload_length,
        reserved: common.reserved,
        flow_id: common.flow_id.get(),
        destination_ia: address.ia.destination.to_u64(),
        source_ia: address.ia.source.to_u64(),
        destination,
        source,
        path_part: part(bytes, path.raw(), path_start),
        payload_part: part(bytes, &packet.payload, payload_start),
    }
}

/// The destination's and the source's host of an address header that `bytes` begin with: the Rust's values, and the model's
/// paddings of these bytes.
pub fn padded_hosts(address: &AddressHeader, kinds: ByEndpoint<AddressInfo>, bytes: &[u8]) -> [Host; 2] {
    let [to, from] = model::paddings([kinds.destination.get(), kinds.source.get()], &bytes[NETWORKS_LENGTH..]);
    [
        Host { padding: to, ..host(&address.host.destination, kinds.destination) },
        Host { padding: from, ..host(&address.host.source, kinds.source) },
    ]
}

/// A host's kind and its number or bytes.
pub fn host(host: &RustHost, kind: AddressInfo) -> Host {
    let mut values = Host { kind: kind.get(), ..Host::default() };
    match host {
        MaybeEncoded::Decoded(HostAddr::V4(address)) => values.bytes[..4].copy_from_slice(&address.octets()),
        MaybeEncoded::Decoded(HostAddr::V6(address)) => values.bytes = address.octets(),
        MaybeEncoded::Decoded(HostAddr::Svc(service)) => values.service = service.0,
        MaybeEncoded::Encoded((info, bytes)) => {
            assert_eq!(*info, kind);
            values.bytes = *bytes;
        }
    }
    values
}

/// Where the Rust's bytes lie; an empty part has no place of its own and gets the one it would start at.
fn part(whole: &[u8], bytes: &[u8], start: usize) -> Part {
    if !bytes.is_empty() {
        assert_eq!(offset(whole, bytes), start);
    }
    Part { start, len: bytes.len() }
}
