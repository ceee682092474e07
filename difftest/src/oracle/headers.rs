//! Common and address headers alone, by the Rust: for the stored list, as the C interface has only whole headers.

use scion_proto::{Answer, Ends};
use scion_rs::address::{HostAddr, IsdAsn, ScionAddr};
use scion_rs::packet::{AddressHeader, AddressInfo, ByEndpoint, CommonHeader, FlowId, Version};
use scion_rs::path::PathType;
use scion_rs::wire_encoding::{WireDecode, WireDecodeWithContext, WireEncode};

use super::packet::padded_hosts;
use super::path::Expected;
use super::write::{factor, has_padding, rust_host};
use super::{ACCEPTED, number_of, refusal};
use crate::model;
use crate::tally::{Exception, Source};

/// The fields of a common header, as wide as a caller may give them.
#[derive(Default)]
pub struct Common {
    pub version: u8,
    pub traffic_class: u8,
    pub flow_id: u32,
    pub next_header: u8,
    pub header_length_factor: usize,
    pub payload_length: usize,
    pub path_type: u8,
    pub destination_kind: u8,
    pub source_kind: u8,
    pub reserved: u16,
}

/// A common header read.
pub fn read_common(bytes: &[u8]) -> (Answer, Common) {
    let header = match CommonHeader::decode(&mut &bytes[..]) {
        Ok(header) => header,
        Err(error) => return (number_of(error), Common::default()),
    };
    let fields = Common {
        version: header.version.get(),
        traffic_class: header.traffic_class,
        flow_id: header.flow_id.get(),
        next_header: header.next_header,
        header_length_factor: header.header_length_factor.get().into(),
        payload_length: header.payload_length.into(),
        path_type: header.path_type.into(),
        destination_kind: header.address_info.destination.get(),
        source_kind: header.address_info.source.get(),
        reserved: header.reserved,
    };
    (ACCEPTED, fields)
}

/// The lengths of all headers, of those after the common header, and of the payload; zeros where it is refused.
pub fn lengths(bytes: &[u8]) -> [usize; 3] {
    CommonHeader::decode(&mut &bytes[..])
        .map_or([0; 3], |header| [header.header_length(), header.remaining_header_length(), header.payload_size()])
}

/// The Rust's common header of these fields, or document 01's first refusal; 10 is the Rust's, the others' numbers have no
/// room in its types.
fn common(fields: &Common) -> Result<CommonHeader, Expected<Answer>> {
    let wide = (refusal(10), Source::Rust);
    let version = Version::new(fields.version).ok_or(wide)?;
    let flow_id = FlowId::new(fields.flow_id).ok_or(wide)?;
    let address_info = ByEndpoint {
        source: AddressInfo::new(fields.source_kind).ok_or(wide)?,
        destination: AddressInfo::new(fields.destination_kind).ok_or(wide)?,
    };
    Ok(CommonHeader {
        version,
        traffic_class: fields.traffic_class,
        flow_id,
        next_header: fields.next_header,
        header_length_factor: factor(fields.header_length_factor).map_err(|answer| (answer, Source::Model))?,
        payload_length: fields.payload_length.try_into().map_err(|_| (refusal(11), Source::Model))?,
        path_type: PathType::from(fields.path_type),
        address_info,
        reserved: fields.reserved,
    })
}

/// Writes to a destination of the exact size; a longer one gets 9, as document 01 has it.
fn write(header: &impl WireEncode, dst: &mut [u8]) -> Expected<Answer> {
    if dst.len() > header.encoded_length() {
        return (refusal(9), Source::Excepted(Exception::LongerEncoderDestination));
    }
    (header.encode_to(&mut &mut dst[..]).map_or(refusal(9), |()| ACCEPTED), Source::Rust)
}

/// How many bytes an address header takes, and the header written.
pub fn length_and_write(header: &AddressHeader, dst: &mut [u8]) -> (usize, Answer, Source) {
    let (answer, source) = write(header, dst);
    (header.encoded_length(), answer, source)
}

/// A common header written.
pub fn write_common(fields: &Common, dst: &mut [u8]) -> Expected<Answer> {
    match common(fields) {
        Ok(header) => write(&header, dst),
        Err(refused) => refused,
    }
}

/// An address header read, and how many bytes it takes.
pub fn read_address(bytes: &[u8], destination_kind: u8, source_kind: u8) -> (Answer, Ends, usize) {
    let kinds = ByEndpoint { source: AddressInfo::new(source_kind), destination: AddressInfo::new(destination_kind) };
    let kinds = kinds.map(|kind| kind.expect("a kind of 4 bits"));
    match AddressHeader::decode_with_context(&mut &bytes[..], kinds) {
        Ok(header) => {
            let [destination, source] = padded_hosts(&header, kinds, bytes);
            let ends = Ends {
                destination_ia: header.ia.destination.to_u64(),
                destination,
                source_ia: header.ia.source.to_u64(),
                source,
            };
            (ACCEPTED, ends, header.encoded_length())
        }
        Err(error) => (number_of(error), Ends::default(), 0),
    }
}

/// The destination's and the source's address, where their hosts have names; those of a refusal are zero.
pub fn named_ends(bytes: &[u8], destination_kind: u8, source_kind: u8) -> [Option<ScionAddr>; 2] {
    let kinds = ByEndpoint { source: AddressInfo::new(source_kind), destination: AddressInfo::new(destination_kind) };
    let kinds = kinds.map(|kind| kind.expect("a kind of 4 bits"));
    let zero = ScionAddr::new(IsdAsn(0), HostAddr::V4([0; 4].into()));
    AddressHeader::decode_with_context(&mut &bytes[..], kinds)
        .map_or([Some(zero); 2], |header| [header.destination(), header.source()])
}

/// An address header written; by the model where a service in it has a padding.
pub fn write_address(ends: &Ends, dst: &mut [u8]) -> Expected<Answer> {
    let (Some(destination), Some(source)) = (rust_host(&ends.destination), rust_host(&ends.source)) else {
        return (refusal(10), Source::Rust);
    };
    let ia = ByEndpoint { source: IsdAsn(ends.source_ia), destination: IsdAsn(ends.destination_ia) };
    let (answer, source) = write(&AddressHeader { ia, host: ByEndpoint { source, destination } }, dst);
    if answer == ACCEPTED && has_padding(&ends.destination, &ends.source) {
        return (model::write_address(ends, dst), Source::Excepted(Exception::ServicePadding));
    }
    (answer, source)
}
