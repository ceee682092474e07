//! Each call with its whole answer, the zeros of a refusal included.
//!
//! The library asks for memory alone, which a slice is, and for nothing of a record: that makes each of these calls safe.

use crate::declared as c;
use crate::types::*;

/// `scion_read_packet`.
pub fn read_packet(bytes: &[u8]) -> Packet {
    unsafe { c::scion_read_packet(bytes.as_ptr(), bytes.len()) }
}

/// `scion_read_capture`.
pub fn read_capture(bytes: &[u8]) -> Capture {
    unsafe { c::scion_read_capture(bytes.as_ptr(), bytes.len()) }
}

/// `scion_read_path`.
pub fn read_path(path_type: u8, bytes: &[u8]) -> PathRead {
    unsafe { c::scion_read_path(path_type, bytes.as_ptr(), bytes.len()) }
}

/// `scion_info_field`.
pub fn info_field(path_type: u8, bytes: &[u8], index: usize) -> InfoField {
    unsafe { c::scion_info_field(path_type, bytes.as_ptr(), bytes.len(), index) }
}

/// `scion_hop_field`.
pub fn hop_field(path_type: u8, bytes: &[u8], index: usize) -> HopField {
    unsafe { c::scion_hop_field(path_type, bytes.as_ptr(), bytes.len(), index) }
}

/// `scion_segment`.
pub fn segment(path_type: u8, bytes: &[u8], index: usize) -> Segment {
    unsafe { c::scion_segment(path_type, bytes.as_ptr(), bytes.len(), index) }
}

/// `scion_segment_expiry`.
pub fn segment_expiry(path_type: u8, bytes: &[u8], index: usize) -> Expiry {
    unsafe { c::scion_segment_expiry(path_type, bytes.as_ptr(), bytes.len(), index) }
}

/// `scion_expiry`.
pub fn expiry(path_type: u8, bytes: &[u8]) -> Expiry {
    unsafe { c::scion_expiry(path_type, bytes.as_ptr(), bytes.len()) }
}

/// `scion_time_left`.
pub fn time_left(path_type: u8, bytes: &[u8], now: u64) -> TimeLeft {
    unsafe { c::scion_time_left(path_type, bytes.as_ptr(), bytes.len(), now) }
}

/// `scion_interfaces_count`.
pub fn interfaces_count(path_type: u8, bytes: &[u8]) -> InterfaceCount {
    unsafe { c::scion_interfaces_count(path_type, bytes.as_ptr(), bytes.len()) }
}

/// `scion_interface`.
pub fn interface(path_type: u8, bytes: &[u8], index: usize) -> Interface {
    unsafe { c::scion_interface(path_type, bytes.as_ptr(), bytes.len(), index) }
}

/// `scion_record_expiry`.
pub fn record_expiry(path: Path) -> u64 {
    unsafe { c::scion_record_expiry(path) }
}

/// `scion_record_time_left`.
pub fn record_time_left(path: Path, now: u64) -> TimeLeft {
    unsafe { c::scion_record_time_left(path, now) }
}

/// `scion_set_ingress_router_alert`.
pub fn set_ingress_router_alert(path_type: u8, bytes: &mut [u8], index: usize, on: bool) -> PathAnswer {
    unsafe { c::scion_set_ingress_router_alert(path_type, bytes.as_mut_ptr(), bytes.len(), index, on) }
}

/// `scion_set_egress_router_alert`.
pub fn set_egress_router_alert(path_type: u8, bytes: &mut [u8], index: usize, on: bool) -> PathAnswer {
    unsafe { c::scion_set_egress_router_alert(path_type, bytes.as_mut_ptr(), bytes.len(), index, on) }
}

/// `scion_move`.
pub fn single_move(path_type: u8, bytes: &mut [u8]) -> PathAnswer {
    unsafe { c::scion_move(path_type, bytes.as_mut_ptr(), bytes.len()) }
}

/// `scion_walk`.
pub fn walk(path_type: u8, bytes: &mut [u8], limit: usize) -> Walk {
    unsafe { c::scion_walk(path_type, bytes.as_mut_ptr(), bytes.len(), limit) }
}

/// `scion_copy_path`.
pub fn copy_path(path_type: u8, bytes: &[u8], dst: &mut [u8]) -> WrittenPath {
    unsafe { c::scion_copy_path(path_type, bytes.as_ptr(), bytes.len(), dst.as_mut_ptr(), dst.len()) }
}

/// `scion_reverse_path`.
pub fn reverse_path(path_type: u8, bytes: &[u8], dst: &mut [u8]) -> WrittenPath {
    unsafe { c::scion_reverse_path(path_type, bytes.as_ptr(), bytes.len(), dst.as_mut_ptr(), dst.len()) }
}

/// `scion_new_headers`.
pub fn new_headers(
    ends: &Ends,
    path_type: u8,
    path_len: usize,
    next_header: u8,
    payload_length: usize,
    flow_id: u32,
) -> Headers {
    unsafe {
        c::scion_new_headers(
            ends.destination_ia,
            ends.destination,
            ends.source_ia,
            ends.source,
            path_type,
            path_len,
            next_header,
            payload_length,
            flow_id,
        )
    }
}

/// `scion_headers_length`.
pub fn headers_length(headers: &Headers, path_len: usize) -> usize {
    unsafe { c::scion_headers_length(*headers, path_len) }
}

/// `scion_write_headers`.
pub fn write_headers(headers: &Headers, path: &[u8], dst: &mut [u8]) -> Answer {
    unsafe { c::scion_write_headers(*headers, path.as_ptr(), path.len(), dst.as_mut_ptr(), dst.len()) }
}

/// `scion_write_new_headers`.
pub fn write_new_headers(
    ends: &Ends,
    path_type: u8,
    next_header: u8,
    payload_length: usize,
    flow_id: u32,
    path: &[u8],
    dst: &mut [u8],
) -> Answer {
    unsafe {
        c::scion_write_new_headers(
            ends.destination_ia,
            ends.destination,
            ends.source_ia,
            ends.source,
            path_type,
            next_header,
            payload_length,
            flow_id,
            path.as_ptr(),
            path.len(),
            dst.as_mut_ptr(),
            dst.len(),
        )
    }
}
