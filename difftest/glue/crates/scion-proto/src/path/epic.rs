//! Glue: a name that `path` hands on. No code at hand uses it.

/// Keys of another path type.
#[derive(Debug, Clone, Default, PartialEq, Eq)]
pub struct EpicAuths;
