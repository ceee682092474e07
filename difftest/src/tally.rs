//! Counts of compared calls, of differences and of exceptions.

use std::fmt::{Debug, Write};

use scion_proto::{Answer, Answered};

/// The calls that are compared.
#[derive(Debug, Clone, Copy, PartialEq, Eq, PartialOrd, Ord)]
#[repr(usize)]
pub enum Call {
    ReadPath,
    InfoField,
    HopField,
    Segment,
    SegmentExpiry,
    Expiry,
    TimeLeft,
    InterfacesCount,
    Interface,
    RecordExpiry,
    RecordTimeLeft,
    SetIngressAlert,
    SetEgressAlert,
    CopyPath,
    ReversePath,
    Move,
    Walk,
    ReadPacket,
    ReadCapture,
    NewHeaders,
    HeadersLength,
    WriteHeaders,
    WriteNewHeaders,
}

/// Every call, in the order of the tables.
pub const CALLS: [Call; 23] = [
    Call::ReadPath,
    Call::InfoField,
    Call::HopField,
    Call::Segment,
    Call::SegmentExpiry,
    Call::Expiry,
    Call::TimeLeft,
    Call::InterfacesCount,
    Call::Interface,
    Call::RecordExpiry,
    Call::RecordTimeLeft,
    Call::SetIngressAlert,
    Call::SetEgressAlert,
    Call::CopyPath,
    Call::ReversePath,
    Call::Move,
    Call::Walk,
    Call::ReadPacket,
    Call::ReadCapture,
    Call::NewHeaders,
    Call::HeadersLength,
    Call::WriteHeaders,
    Call::WriteNewHeaders,
];

/// Whose answer a call is held to.
#[derive(Debug, Clone, Copy, PartialEq, Eq)]
pub enum Source {
    /// The Rust's.
    Rust,
    /// The one of document 01's text: what the Rust lacks, or can't be asked.
    Model,
    /// An exception's.
    Excepted(Exception),
}

impl Source {
    /// Whether the answer is the Rust's; of the exceptions only contradictory headers are written by it.
    pub fn is_rust(self) -> bool {
        matches!(self, Self::Rust | Self::Excepted(Exception::ContradictoryHeaders))
    }
}

/// Where the Rust's answer has no meaning or is not document 01's or a request's, which decide. There are no others.
#[derive(Debug, Clone, Copy, PartialEq, Eq)]
#[repr(usize)]
pub enum Exception {
    PanickingSize,
    InterfaceBeyondCount,
    PeeringInterfaces,
    OffsetBeyondCount,
    UnreadStandardPathWritten,
    LongerEncoderDestination,
    ContradictoryHeaders,
    ServicePadding,
    ShortHeader,
}

/// Each exception with its reason.
pub const EXCEPTIONS: [(Exception, &str); 9] = [
    (
        Exception::PanickingSize,
        "the Rust was seen to panic at this size; 01: 9, or 1 for a number cut short; 2026-08: a longer copy's front",
    ),
    (
        Exception::InterfaceBeyondCount,
        "interface index at or above the count, where the Rust's answer has no meaning; 01: 8",
    ),
    (
        Exception::PeeringInterfaces,
        "interface calls on a peering path, where the Rust has 2·(N − I); 2026-03: 2·(N − 1)",
    ),
    (
        Exception::OffsetBeyondCount,
        "offset of a field that is not there: past the path, and near 2^64 wrapped or a panic; 01: 8",
    ),
    (
        Exception::UnreadStandardPathWritten,
        "type 1 written with bytes that are not a path that was read; 01: written as given",
    ),
    (Exception::LongerEncoderDestination, "the Rust's encoder takes a longer destination; 01: 9"),
    (
        Exception::ContradictoryHeaders,
        "a factor that the lengths don't give; the Rust writes it as it stands, and is compared",
    ),
    (
        Exception::ServicePadding,
        "a service's padding that is not zero, where the Rust writes zero; 2026-05: written as it is given",
    ),
    (
        Exception::ShortHeader,
        "a packet with fewer bytes than 4 × its factor, of which the Rust reads what is there; 2026-06: 1",
    ),
];

/// How many differences are shown of each call: those with the shortest inputs.
const SHOWN: usize = 3;

/// The counts of a run.
#[derive(Default)]
pub struct Tally {
    counts: [[u64; 16]; CALLS.len()],
    by_rust: u64,
    exceptions: [u64; EXCEPTIONS.len()],
    pub differed: u64,
    pub claims: u64,
    pub events: u64,
    shown: [Vec<String>; CALLS.len()],
}

impl Tally {
    /// How many calls have been compared.
    pub fn compared(&self) -> u64 {
        self.counts.iter().flatten().sum()
    }

    /// How many of them were given a record and no bytes.
    fn compared_of_records(&self) -> u64 {
        [Call::RecordExpiry, Call::RecordTimeLeft].iter().flat_map(|call| self.counts[*call as usize]).sum()
    }

    /// How many of them were given bytes or headers: by these a random part's size is told.
    pub fn compared_of_bytes(&self) -> u64 {
        self.compared() - self.compared_of_records()
    }

    /// Compares two answers to a call; `input` is asked for only where they differ.
    #[inline]
    pub fn compare<T: Answered + PartialEq + Debug>(
        &mut self,
        call: Call,
        ours: &T,
        (expected, source): (&T, Source),
        input: impl FnOnce() -> String,
    ) {
        self.count(call, expected.answer(), source);
        if ours != expected {
            self.differ(call, input(), format!("{ours:?}"), format!("{expected:?}"));
        }
    }

    /// Counts a call by the number that is expected of it and by whose answer that is.
    #[inline]
    pub fn count(&mut self, call: Call, answer: Answer, source: Source) {
        self.counts[call as usize][usize::from(answer.number & 15)] += 1;
        self.by_rust += u64::from(source.is_rust());
        if let Source::Excepted(exception) = source {
            self.except(exception);
        }
    }

    /// Compares the bytes after a call, which has been counted.
    #[inline]
    pub fn bytes(&mut self, call: Call, ours: &[u8], expected: &[u8], input: impl FnOnce() -> String) {
        if ours != expected {
            self.differ(call, input(), hex(ours), hex(expected));
        }
    }

    /// Compares values that belong to a call, which has been counted.
    #[inline]
    pub fn values<T: PartialEq + Debug>(&mut self, call: Call, ours: &T, expected: &T, input: impl FnOnce() -> String) {
        if ours != expected {
            self.differ(call, input(), format!("{ours:?}"), format!("{expected:?}"));
        }
    }

    /// Notes a difference, and keeps it while its input is among the shortest of its call.
    #[cold]
    pub fn differ(&mut self, call: Call, input: String, ours: String, expected: String) {
        self.differed += 1;
        let shown = &mut self.shown[call as usize];
        shown.push(format!("DIFFERS {call:?} {input}\n    library  {ours}\n    expected {expected}"));
        shown.sort_by_key(String::len);
        shown.truncate(SHOWN);
    }

    /// Counts an exception.
    pub fn except(&mut self, exception: Exception) {
        self.exceptions[exception as usize] += 1;
    }

    /// The differences kept, by call, shortest input first.
    pub fn differences(&self) -> impl Iterator<Item = &String> {
        self.shown.iter().flatten()
    }

    /// The tables: calls by answer, and exceptions by name.
    pub fn tables(&self) -> String {
        let mut text = String::from("calls by expected answer\n");
        write!(text, "{:<16}", "").unwrap();
        for number in 0..16 {
            write!(text, "{number:>11}").unwrap();
        }
        text.push('\n');
        for call in CALLS {
            write!(text, "{:<16}", format!("{call:?}")).unwrap();
            for count in self.counts[call as usize] {
                let cell = if count == 0 { String::from(".") } else { count.to_string() };
                write!(text, "{cell:>11}").unwrap();
            }
            text.push('\n');
        }
        text.push_str("exceptions\n");
        text.push_str(&self.exceptions_table());
        text
    }

    /// The exceptions that were met, by name, with their reasons.
    pub fn exceptions_table(&self) -> String {
        let line = |(exception, reason): (Exception, &str)| {
            let name = format!("{exception:?}");
            format!("{name:<26}{:>12}  {reason}\n", self.exceptions[exception as usize])
        };
        EXCEPTIONS.into_iter().filter(|(exception, _)| self.exceptions[*exception as usize] > 0).map(line).collect()
    }

    /// How many calls fell under exceptions.
    pub fn excepted(&self) -> u64 {
        self.exceptions.iter().sum()
    }

    /// The last line of a run.
    pub fn summary(&self) -> String {
        format!(
            "compared {} calls ({} by the Rust, {} by document 01's model), {} differed, {} under exceptions; \
             {} events, {} claims of event lists",
            self.compared(),
            self.by_rust,
            self.compared() - self.by_rust,
            self.differed,
            self.excepted(),
            self.events,
            self.claims
        )
    }
}

/// Bytes as hexadecimal digits, `-` where there are none.
pub fn hex(bytes: &[u8]) -> String {
    if bytes.is_empty() {
        return String::from("-");
    }
    bytes.iter().map(|byte| format!("{byte:02x}")).collect()
}
