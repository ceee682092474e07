//! Glue: metadata is left out of the comparison; only the fields that `path` names.

use chrono::{DateTime, Utc};
use scion_grpc::daemon::v1 as daemon_grpc;

use super::{PathParseError, PathParseErrorKind};

/// A place on the earth.
#[derive(Debug, Clone, Default, PartialEq)]
pub struct GeoCoordinates;

/// A kind of link.
#[derive(Debug, Clone, Default, PartialEq, Eq)]
pub struct LinkType;

/// An interface of a network.
#[derive(Debug, Clone, Default, PartialEq, Eq)]
pub struct PathInterface;

/// What is known of a path beside its bytes.
#[derive(Debug, Clone, Default, PartialEq)]
pub struct PathMetadata {
    /// When it expires.
    pub expiration: DateTime<Utc>,
    /// The largest packet.
    pub mtu: u16,
    /// Its interfaces.
    pub interfaces: Vec<PathInterface>,
    /// Where its routers stand.
    pub geo: Vec<GeoCoordinates>,
}

impl TryFrom<daemon_grpc::Path> for PathMetadata {
    type Error = PathParseError;

    fn try_from(_: daemon_grpc::Path) -> Result<Self, Self::Error> {
        Err(PathParseErrorKind::InvalidPathInterface.into())
    }
}
