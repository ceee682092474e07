//! Headers: made and written by the Rust.

use std::num::NonZeroU8;

use bytes::Bytes;
use scion_proto::{Answer, Ends, Headers, Host};
use scion_rs::address::{HostAddr, IsdAsn, ScionAddr, ServiceAddr};
use scion_rs::packet::{
    AddressHeader, AddressInfo, ByEndpoint, CommonHeader, EncodeError, FlowId, ScionHeaders, Version,
};
use scion_rs::path::{DataplanePath, Path, PathType};
use scion_rs::wire_encoding::{MaybeEncoded, WireEncode};

use super::packet::{self, RustHost};
use super::path::{Expected, Oracle};
use super::{ACCEPTED, lend, refusal};
use crate::model;
use crate::tally::{Exception, Source};

/// A host that the Rust knows by its kind; others are opaque to it.
pub fn known_host(host: &Host) -> Option<HostAddr> {
    let [a, b, c, d, ..] = host.bytes;
    match host.kind {
        0 => Some(HostAddr::V4([a, b, c, d].into())),
        3 => Some(HostAddr::V6(host.bytes.into())),
        4 => Some(HostAddr::Svc(ServiceAddr(host.service))),
        _ => None,
    }
}

/// Any host as the Rust holds it; none where its kind is too wide.
pub fn rust_host(host: &Host) -> Option<RustHost> {
    let kind = AddressInfo::new(host.kind)?;
    Some(match known_host(host) {
        Some(known) => MaybeEncoded::Decoded(known),
        None => MaybeEncoded::Encoded((kind, host.bytes)),
    })
}

/// The Rust's path of a type and bytes; none for type 1 with bytes that are not exactly a path that was read.
fn rust_path(path_type: u8, bytes: &[u8]) -> Option<DataplanePath<Bytes>> {
    match PathType::from(path_type) {
        PathType::Empty => Some(DataplanePath::EmptyPath),
        PathType::Scion => {
            let oracle = Oracle::new(path_type, bytes);
            let path = oracle.standard().ok()?.clone();
            (path.raw().len() == bytes.len()).then(|| path.into())
        }
        other => Some(DataplanePath::Unsupported { path_type: other, bytes: lend(bytes) }),
    }
}

/// The headers that are to be made: what `ScionHeaders::new` makes where it makes some, else by document 01's rule, where
/// headers are made of any values and refused when they are written.
pub fn new_headers(
    ends: &Ends,
    path_type: u8,
    path: &[u8],
    next_header: u8,
    payload_length: usize,
    flow_id: u32,
) -> Expected<Headers> {
    match rust_new(ends, path_type, path, next_header, payload_length, flow_id) {
        Some(Ok(headers)) => (values(&headers), Source::Rust),
        _ => {
            let made = model::new_headers(ends, path_type, path.len(), next_header, payload_length, flow_id);
            (made, Source::Model)
        }
    }
}

/// `ScionHeaders::new`, where its arguments can be built: hosts that it knows, a flow that fits.
fn rust_new(
    ends: &Ends,
    path_type: u8,
    path: &[u8],
    next_header: u8,
    payload_length: usize,
    flow_id: u32,
) -> Option<Result<ScionHeaders, EncodeError>> {
    let endhosts = ByEndpoint {
        source: ScionAddr::new(IsdAsn(ends.source_ia), known_host(&ends.source)?),
        destination: ScionAddr::new(IsdAsn(ends.destination_ia), known_host(&ends.destination)?),
    };
    let isd_asn = endhosts.map(ScionAddr::isd_asn);
    let path = Path::new(rust_path(path_type, path)?, isd_asn, None);
    Some(ScionHeaders::new(&endhosts, &path, next_header, payload_length, FlowId::new(flow_id)?))
}

/// Every value of the Rust's headers.
fn values(headers: &ScionHeaders) -> Headers {
    let (common, address) = (&headers.common, &headers.address);
    Headers {
        version: common.version.get(),
        traffic_class: common.traffic_class,
        flow_id: common.flow_id.get(),
        next_header: common.next_header,
        header_length_factor: common.header_length_factor.get().into(),
        payload_length: common.payload_length.into(),
        path_type: common.path_type.into(),
        reserved: common.reserved,
        destination_ia: address.ia.destination.to_u64(),
        destination: packet::host(&address.host.destination, common.address_info.destination),
        source_ia: address.ia.source.to_u64(),
        source: packet::host(&address.host.source, common.address_info.source),
    }
}

/// How many bytes the headers take by the Rust; by document 01's rule where they can't be built.
pub fn headers_length(headers: &Headers, path: &[u8]) -> Expected<usize> {
    match rust_headers(headers, path) {
        Ok((rust, _)) => (rust.encoded_length(), Source::Rust),
        Err(_) => (model::headers_length(headers, path.len()), Source::Model),
    }
}

/// Why the Rust's headers could not be built: a number that its types refuse, one that they have no room for, a path.
enum Unbuilt {
    Refused(Answer),
    NoRoom(Answer),
    UnreadPath,
}

/// The Rust's headers of these values, in document 01's order of refusals, and whether the factor contradicts them.
fn rust_headers(headers: &Headers, path: &[u8]) -> Result<(ScionHeaders, bool), Unbuilt> {
    let wide = || Unbuilt::Refused(refusal(10));
    let version = Version::new(headers.version).ok_or_else(wide)?;
    let flow_id = FlowId::new(headers.flow_id).ok_or_else(wide)?;
    let host = ByEndpoint {
        source: rust_host(&headers.source).ok_or_else(wide)?,
        destination: rust_host(&headers.destination).ok_or_else(wide)?,
    };
    let factor = factor(headers.header_length_factor).map_err(Unbuilt::NoRoom)?;
    let payload_length = headers.payload_length.try_into().map_err(|_| Unbuilt::NoRoom(refusal(11)))?;
    let path = rust_path(headers.path_type, path).ok_or(Unbuilt::UnreadPath)?;
    let kind = |host: &Host| AddressInfo::new(host.kind).expect("tested above");
    let common = CommonHeader {
        version,
        traffic_class: headers.traffic_class,
        flow_id,
        next_header: headers.next_header,
        header_length_factor: factor,
        payload_length,
        path_type: path.path_type(),
        address_info: ByEndpoint { source: kind(&headers.source), destination: kind(&headers.destination) },
        reserved: headers.reserved,
    };
    let ia = ByEndpoint { source: IsdAsn(headers.source_ia), destination: IsdAsn(headers.destination_ia) };
    let rust = ScionHeaders { common, address: AddressHeader { ia, host }, path };
    let contradicts = rust.encoded_length() / 4 != usize::from(factor.get());
    Ok((rust, contradicts))
}

/// The factor as the Rust holds it: 3 where it is 0, 12 where it is too large.
pub fn factor(factor: usize) -> Result<NonZeroU8, Answer> {
    let byte = u8::try_from(factor).map_err(|_| refusal(12))?;
    NonZeroU8::new(byte).ok_or(refusal(3))
}

/// Whether a service among two hosts has a padding that is not zero: the Rust has none, and writes zero.
pub fn has_padding(destination: &Host, source: &Host) -> bool {
    [destination, source].iter().any(|host| host.kind == 4 && host.padding != 0)
}

/// The headers written by the Rust to `dst`; by the model where it accepts them and a service in them has a padding.
pub fn write_headers(headers: &Headers, path: &[u8], dst: &mut [u8]) -> Expected<Answer> {
    let (answer, source) = match rust_headers(headers, path) {
        Ok((rust, contradicts)) => written(&rust, contradicts, dst),
        Err(Unbuilt::Refused(answer)) => (answer, Source::Rust),
        Err(Unbuilt::NoRoom(answer)) => (answer, Source::Model),
        Err(Unbuilt::UnreadPath) => {
            let answer = model::write_headers(headers, path, dst);
            (answer, Source::Excepted(Exception::UnreadStandardPathWritten))
        }
    };
    if answer == ACCEPTED && has_padding(&headers.destination, &headers.source) {
        return (model::write_headers(headers, path, dst), Source::Excepted(Exception::ServicePadding));
    }
    (answer, source)
}

/// The Rust's headers written to `dst`; a longer one gets 9, as document 01 has it.
fn written(rust: &ScionHeaders, contradicts: bool, dst: &mut [u8]) -> Expected<Answer> {
    if dst.len() > rust.encoded_length() {
        return (refusal(9), Source::Excepted(Exception::LongerEncoderDestination));
    }
    let mut room = &mut dst[..];
    match rust.encode_to(&mut room) {
        Ok(()) if contradicts => (ACCEPTED, Source::Excepted(Exception::ContradictoryHeaders)),
        Ok(()) => (ACCEPTED, Source::Rust),
        Err(_) => (refusal(9), Source::Rust),
    }
}

/// Headers made and written: by `ScionHeaders::new` and its encoder where its arguments can be built, else as `write_headers`.
pub fn write_new_headers(ends: &Ends, made: &Headers, path: &[u8], dst: &mut [u8]) -> Expected<Answer> {
    match rust_new(ends, made.path_type, path, made.next_header, made.payload_length, made.flow_id) {
        Some(Ok(rust)) => written(&rust, false, dst),
        Some(Err(EncodeError::HeaderTooLarge)) => (refusal(12), Source::Rust),
        Some(Err(EncodeError::PayloadTooLarge)) => (refusal(11), Source::Rust),
        None => write_headers(made, path, dst),
    }
}
