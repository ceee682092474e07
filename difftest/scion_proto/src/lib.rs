//! SCION headers for a ground station: the calls of `libscion_proto.a` with slices in and results out.
//!
//! Every call may be made with any bytes, index and size: it answers with its value, or with a [`Refusal`] that has
//! changed no lent byte. [`calls`] has the same calls with the whole answer, as the library hands it back.

pub mod calls;
mod declared;
mod types;

pub use types::*;

/// A path that was read: its record and its length.
pub fn read_path(path_type: u8, bytes: &[u8]) -> Result<PathRead, Refusal> {
    calls::read_path(path_type, bytes).result()
}

/// A packet split into header values, path and payload. One with fewer bytes than its headers take by their factor is
/// refused with 1; captures have a reading of their own, [`read_capture`].
pub fn read_packet(bytes: &[u8]) -> Result<Packet, Refusal> {
    calls::read_packet(bytes).result()
}

/// A captured packet split as by [`read_packet`], and whether it is short: one with fewer bytes than 4 × its factor is not
/// refused for that.
pub fn read_capture(bytes: &[u8]) -> Result<Capture, Refusal> {
    calls::read_capture(bytes).result()
}

/// Info field `index` of a standard path.
pub fn info_field(path_type: u8, bytes: &[u8], index: usize) -> Result<InfoField, Refusal> {
    calls::info_field(path_type, bytes, index).result()
}

/// Hop field `index` of a standard path.
pub fn hop_field(path_type: u8, bytes: &[u8], index: usize) -> Result<HopField, Refusal> {
    calls::hop_field(path_type, bytes, index).result()
}

/// Where segment `index` has its info field and its hop fields.
pub fn segment(path_type: u8, bytes: &[u8], index: usize) -> Result<Segment, Refusal> {
    calls::segment(path_type, bytes, index).result()
}

/// When segment `index` expires, in ms since 1970.
pub fn segment_expiry(path_type: u8, bytes: &[u8], index: usize) -> Result<u64, Refusal> {
    Ok(calls::segment_expiry(path_type, bytes, index).result()?.ms)
}

/// When the path expires, in ms since 1970.
pub fn expiry(path_type: u8, bytes: &[u8]) -> Result<u64, Refusal> {
    Ok(calls::expiry(path_type, bytes).result()?.ms)
}

/// Expiry less `now`, in ms.
pub fn time_left(path_type: u8, bytes: &[u8], now: u64) -> Result<i64, Refusal> {
    Ok(calls::time_left(path_type, bytes, now).result()?.ms)
}

/// How many interfaces the path has: two for each link, that between the segments of a peering path included.
pub fn interfaces_count(path_type: u8, bytes: &[u8]) -> Result<usize, Refusal> {
    Ok(calls::interfaces_count(path_type, bytes).result()?.count)
}

/// Interface `index` and its hop field.
pub fn interface(path_type: u8, bytes: &[u8], index: usize) -> Result<Interface, Refusal> {
    calls::interface(path_type, bytes, index).result()
}

/// Sets or clears the ingress alert flag of hop field `index`.
pub fn set_ingress_router_alert(path_type: u8, bytes: &mut [u8], index: usize, on: bool) -> Result<Path, Refusal> {
    Ok(calls::set_ingress_router_alert(path_type, bytes, index, on).result()?.path)
}

/// Sets or clears the egress alert flag of hop field `index`.
pub fn set_egress_router_alert(path_type: u8, bytes: &mut [u8], index: usize, on: bool) -> Result<Path, Refusal> {
    Ok(calls::set_egress_router_alert(path_type, bytes, index, on).result()?.path)
}

/// A single move to the next hop field; the record after it.
pub fn single_move(path_type: u8, bytes: &mut [u8]) -> Result<Path, Refusal> {
    Ok(calls::single_move(path_type, bytes).result()?.path)
}

/// Moves until the last hop field or the limit.
pub fn walk(path_type: u8, bytes: &mut [u8], limit: usize) -> Result<Walk, Refusal> {
    calls::walk(path_type, bytes, limit).result()
}

/// The path copied to the front of a destination of at least its length, whose other bytes stay: the record and that
/// front.
pub fn copy_path<'a>(path_type: u8, bytes: &[u8], dst: &'a mut [u8]) -> Result<Written<'a>, Refusal> {
    Ok(calls::copy_path(path_type, bytes, dst).result()?.of(dst))
}

/// The reply's path at the front of a destination of at least the path's length, whose other bytes stay: the record and
/// that front, which is what is sent.
pub fn reverse_path<'a>(path_type: u8, bytes: &[u8], dst: &'a mut [u8]) -> Result<Written<'a>, Refusal> {
    Ok(calls::reverse_path(path_type, bytes, dst).result()?.of(dst))
}

/// The headers and their path written into a destination of [`Headers::length`] bytes.
pub fn write_headers(headers: &Headers, path: &[u8], dst: &mut [u8]) -> Result<(), Refusal> {
    calls::write_headers(headers, path, dst).result().map(|_| ())
}

/// The headers that [`Headers::new`] makes for a path, and the path, written into a destination of their length.
pub fn write_new_headers(
    ends: &Ends,
    path_type: u8,
    next_header: u8,
    payload_length: usize,
    flow_id: u32,
    path: &[u8],
    dst: &mut [u8],
) -> Result<(), Refusal> {
    calls::write_new_headers(ends, path_type, next_header, payload_length, flow_id, path, dst).result().map(|_| ())
}

impl Path {
    /// The expiry that is stored in the record, in ms since 1970, without a look at any bytes; 0 where there is none.
    ///
    /// A record that was made by hand gives the number that was put there.
    pub fn expiry_time(&self) -> u64 {
        calls::record_expiry(*self)
    }

    /// The stored expiry less `now`, in ms, without a look at any bytes; 10 where it is above [`MAX_EXPIRY`] or `now`
    /// above [`MAX_NOW`].
    ///
    /// This is arithmetic on any record: one without a path, whose expiry is 0, has to be ruled out first.
    pub fn time_left(&self, now: u64) -> Result<i64, Refusal> {
        Ok(calls::record_time_left(*self, now).result()?.ms)
    }
}

impl Headers {
    /// Headers between two hosts: version, traffic class, reserved and a service's padding 0, and the factor that follows
    /// from the lengths.
    pub fn new(
        ends: &Ends,
        path_type: u8,
        path_len: usize,
        next_header: u8,
        payload_length: usize,
        flow_id: u32,
    ) -> Self {
        calls::new_headers(ends, path_type, path_len, next_header, payload_length, flow_id)
    }

    /// How many bytes they take with a path of `path_len` bytes.
    pub fn length(&self, path_len: usize) -> usize {
        calls::headers_length(self, path_len)
    }
}
