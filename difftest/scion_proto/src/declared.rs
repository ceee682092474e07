//! The calls as `scion_proto.h` declares them.

use crate::types::*;

unsafe extern "C" {
    pub fn scion_read_packet(bytes: *const u8, len: usize) -> Packet;
    pub fn scion_read_capture(bytes: *const u8, len: usize) -> Capture;
    pub fn scion_read_path(path_type: u8, bytes: *const u8, len: usize) -> PathRead;
    pub fn scion_info_field(path_type: u8, bytes: *const u8, len: usize, index: usize) -> InfoField;
    pub fn scion_hop_field(path_type: u8, bytes: *const u8, len: usize, index: usize) -> HopField;
    pub fn scion_segment(path_type: u8, bytes: *const u8, len: usize, index: usize) -> Segment;
    pub fn scion_segment_expiry(path_type: u8, bytes: *const u8, len: usize, index: usize) -> Expiry;
    pub fn scion_expiry(path_type: u8, bytes: *const u8, len: usize) -> Expiry;
    pub fn scion_time_left(path_type: u8, bytes: *const u8, len: usize, now: u64) -> TimeLeft;
    pub fn scion_interfaces_count(path_type: u8, bytes: *const u8, len: usize) -> InterfaceCount;
    pub fn scion_interface(path_type: u8, bytes: *const u8, len: usize, index: usize) -> Interface;
    pub fn scion_record_expiry(path: Path) -> u64;
    pub fn scion_record_time_left(path: Path, now: u64) -> TimeLeft;
    pub fn scion_set_ingress_router_alert(
        path_type: u8,
        bytes: *mut u8,
        len: usize,
        index: usize,
        on: bool,
    ) -> PathAnswer;
    pub fn scion_set_egress_router_alert(
        path_type: u8,
        bytes: *mut u8,
        len: usize,
        index: usize,
        on: bool,
    ) -> PathAnswer;
    pub fn scion_move(path_type: u8, bytes: *mut u8, len: usize) -> PathAnswer;
    pub fn scion_walk(path_type: u8, bytes: *mut u8, len: usize, limit: usize) -> Walk;
    pub fn scion_copy_path(path_type: u8, bytes: *const u8, len: usize, dst: *mut u8, dst_len: usize) -> WrittenPath;
    pub fn scion_reverse_path(path_type: u8, bytes: *const u8, len: usize, dst: *mut u8, dst_len: usize)
    -> WrittenPath;
    pub fn scion_new_headers(
        destination_ia: u64,
        destination: Host,
        source_ia: u64,
        source: Host,
        path_type: u8,
        path_len: usize,
        next_header: u8,
        payload_length: usize,
        flow_id: u32,
    ) -> Headers;
    pub fn scion_headers_length(headers: Headers, path_len: usize) -> usize;
    pub fn scion_write_headers(
        headers: Headers,
        path: *const u8,
        path_len: usize,
        dst: *mut u8,
        dst_len: usize,
    ) -> Answer;
    pub fn scion_write_new_headers(
        destination_ia: u64,
        destination: Host,
        source_ia: u64,
        source: Host,
        path_type: u8,
        next_header: u8,
        payload_length: usize,
        flow_id: u32,
        path: *const u8,
        path_len: usize,
        dst: *mut u8,
        dst_len: usize,
    ) -> Answer;
}
