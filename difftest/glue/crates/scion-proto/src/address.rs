//! Glue: names the modules of addresses. Of a socket address only what the headers' code asks for.

mod asn;
mod error;
mod host;
mod ia;
mod isd;
mod scion_address;
mod service;

pub use asn::Asn;
pub use error::AddressParseError;
pub use host::{HostAddr, HostType};
pub use ia::IsdAsn;
pub use isd::Isd;
pub use scion_address::{ScionAddr, ScionAddrSvc, ScionAddrV4, ScionAddrV6};
pub use service::ServiceAddr;

/// A host of a network and a port. Left out of the comparison.
#[derive(Debug, Clone, Copy, PartialEq, Eq)]
pub struct SocketAddr {
    address: ScionAddr,
    port: u16,
}

impl SocketAddr {
    /// The address without the port.
    pub fn scion_address(&self) -> ScionAddr {
        self.address
    }

    /// The network's number.
    pub fn isd_asn(&self) -> IsdAsn {
        self.address.isd_asn()
    }

    /// The host.
    pub fn host(&self) -> HostAddr {
        self.address.host()
    }

    /// The port.
    pub fn port(&self) -> u16 {
        self.port
    }
}
