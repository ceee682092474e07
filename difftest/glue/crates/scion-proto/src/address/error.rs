//! Glue: what a text that is no address is refused with.

/// Which kind of address was looked for.
#[derive(Debug, Clone, Copy, PartialEq, Eq)]
pub enum AddressKind {
    /// An ISD.
    Isd,
    /// An AS.
    Asn,
    /// An ISD and an AS.
    IsdAsn,
    /// A service.
    Service,
    /// Any SCION address.
    Scion,
    /// One with an IPv4 host.
    ScionV4,
    /// One with an IPv6 host.
    ScionV6,
    /// One with a service.
    ScionSvc,
}

/// A text that is no address of the kind.
#[derive(Debug, Clone, Copy, PartialEq, Eq, thiserror::Error)]
#[error("no address of kind {0:?}")]
pub struct AddressParseError(pub(crate) AddressKind);

impl From<AddressKind> for AddressParseError {
    fn from(kind: AddressKind) -> Self {
        Self(kind)
    }
}
