//! Glue: fingerprints are left out; there is never one.

use super::Path;

/// A path's fingerprint.
#[derive(Debug, Clone, PartialEq, Eq)]
pub struct PathFingerprint;

/// Why there is no fingerprint.
#[derive(Debug, Clone, PartialEq, Eq, thiserror::Error)]
#[error("fingerprints are left out")]
pub struct FingerprintError;

impl<T> TryFrom<&Path<T>> for PathFingerprint {
    type Error = FingerprintError;

    fn try_from(_: &Path<T>) -> Result<Self, Self::Error> {
        Err(FingerprintError)
    }
}
