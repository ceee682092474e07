//! Glue: names the modules of packets.

use crate::wire_encoding::WireEncodeVec;

mod error;
mod headers;
mod raw;

pub use error::{DecodeError, EncodeError, InadequateBufferSize, ScmpEncodeError};
pub use headers::{
    AddressHeader, AddressInfo, ByEndpoint, CommonHeader, FlowId, RawHostAddress, ScionHeaders, Version,
};
pub use raw::ScionPacketRaw;

/// A packet that can be written as `N` parts; the source adds nothing to it for raw packets.
pub trait ScionPacket<const N: usize>: WireEncodeVec<N> {}
