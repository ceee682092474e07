//! Glue: an AS number of 48 bits. Text forms are left out of the comparison.

use std::{fmt, str::FromStr};

use super::{AddressParseError, error::AddressKind};

/// An AS number.
#[derive(Debug, Clone, Copy, PartialEq, Eq, PartialOrd, Ord, Hash)]
pub struct Asn(u64);

impl Asn {
    /// How many bits it has.
    pub const BITS: u32 = 48;
    /// Any AS.
    pub const WILDCARD: Self = Self(0);
    /// The largest.
    pub const MAX: Self = Self((1 << Self::BITS) - 1);

    /// The AS of a number of at most 48 bits.
    pub const fn new(number: u64) -> Self {
        assert!(number <= Self::MAX.0);
        Self(number)
    }

    /// Its number.
    pub const fn to_u64(&self) -> u64 {
        self.0
    }

    /// Whether it stands for any AS.
    pub const fn is_wildcard(&self) -> bool {
        self.0 == 0
    }
}

impl fmt::Display for Asn {
    fn fmt(&self, f: &mut fmt::Formatter<'_>) -> fmt::Result {
        write!(f, "{:#x}", self.0)
    }
}

impl FromStr for Asn {
    type Err = AddressParseError;

    fn from_str(text: &str) -> Result<Self, Self::Err> {
        match text.parse::<u64>() {
            Ok(number) if number <= Self::MAX.0 => Ok(Self(number)),
            _ => Err(AddressKind::Asn.into()),
        }
    }
}
