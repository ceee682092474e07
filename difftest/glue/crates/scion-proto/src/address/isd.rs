//! Glue: an ISD number of 16 bits. Text forms are left out of the comparison.

use std::{fmt, str::FromStr};

use super::{AddressParseError, error::AddressKind};

/// An ISD number.
#[derive(Debug, Clone, Copy, PartialEq, Eq, PartialOrd, Ord, Hash)]
pub struct Isd(pub u16);

impl Isd {
    /// Any ISD.
    pub const WILDCARD: Self = Self(0);
    /// The largest.
    pub const MAX: Self = Self(u16::MAX);

    /// The ISD of a number.
    pub const fn new(number: u16) -> Self {
        Self(number)
    }

    /// Its number.
    pub const fn to_u16(&self) -> u16 {
        self.0
    }

    /// Whether it stands for any ISD.
    pub const fn is_wildcard(&self) -> bool {
        self.0 == 0
    }
}

impl fmt::Display for Isd {
    fn fmt(&self, f: &mut fmt::Formatter<'_>) -> fmt::Result {
        write!(f, "{}", self.0)
    }
}

impl FromStr for Isd {
    type Err = AddressParseError;

    fn from_str(text: &str) -> Result<Self, Self::Err> {
        text.parse().map(Self).map_err(|_| AddressKind::Isd.into())
    }
}
