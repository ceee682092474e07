//! Glue, on the byte path: `DateTime` over the packaged time library's, with the two calls that it lacks.

use std::{cmp::Ordering, marker::PhantomData, ops::Add, time::Duration};

pub use packaged::Utc;

/// A moment.
#[derive(Debug, Clone, Copy, PartialEq, Eq, Hash)]
pub struct DateTime<Tz>(packaged::DateTime<Utc>, PhantomData<Tz>);

impl DateTime<Utc> {
    /// The last moment that can be told.
    pub const MAX_UTC: Self = Self(packaged::DateTime::<Utc>::MAX_UTC, PhantomData);

    /// The moment so many seconds and nanoseconds after the start of 1970.
    pub fn from_timestamp(seconds: i64, nanoseconds: u32) -> Option<Self> {
        let naive = packaged::NaiveDateTime::from_timestamp_opt(seconds, nanoseconds)?;
        Some(Self(packaged::DateTime::from_utc(naive, Utc), PhantomData))
    }

    /// Milliseconds since the start of 1970.
    pub fn timestamp_millis(&self) -> i64 {
        self.0.timestamp_millis()
    }

    /// Seconds since the start of 1970.
    pub fn timestamp(&self) -> i64 {
        self.0.timestamp()
    }
}

impl Default for DateTime<Utc> {
    fn default() -> Self {
        Self::from_timestamp(0, 0).expect("the start of 1970")
    }
}

impl Add<Duration> for DateTime<Utc> {
    type Output = Self;

    fn add(self, span: Duration) -> Self {
        let span = packaged::Duration::from_std(span).expect("a span that can be told");
        Self(self.0 + span, PhantomData)
    }
}

impl Ord for DateTime<Utc> {
    fn cmp(&self, other: &Self) -> Ordering {
        self.0.cmp(&other.0)
    }
}

impl PartialOrd for DateTime<Utc> {
    fn partial_cmp(&self, other: &Self) -> Option<Ordering> {
        Some(self.cmp(other))
    }
}
