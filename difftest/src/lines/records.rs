//! Lines on the records that calls hand back, each with its expiry, and on records made by hand.

use scion_proto::{Answer, Path};

use super::Line;
use super::paths::{add_answer, add_record, write};
use crate::model;
use crate::oracle::packet;
use crate::oracle::path::Oracle;
use crate::tally::Source;

/// Adds a number, a value, and a record with its expiry.
fn add_left(line: &mut Line, answer: Answer, path: Path) {
    add_answer(line, answer);
    add_record(line, path);
    line.add(path.expiry);
}

/// `recordviews T B i`: the expiry in the record beside info field, hop field and segment i, the expiry of segment i and of
/// the path, the time left at i, the number of interfaces, and interface i.
fn views(line: &mut Line, oracle: &Oracle) {
    let index = line.index(3);
    let (left, left_source) = oracle.time_left(line.number(3));
    let (interface, source) = oracle.interface(index);
    line.source = if matches!(source, Source::Excepted(_)) { source } else { left_source };
    for path in [
        oracle.info_field(index).path,
        oracle.hop_field(index).path,
        oracle.segment(index).path,
        oracle.segment_expiry(index).path,
        oracle.expiry().path,
        left.path,
        oracle.interfaces_count().0.path,
        interface.path,
    ] {
        line.add(path.expiry);
    }
}

/// Calls on a path that change no bytes: word 1 is the type, word 2 the bytes.
fn read(line: &mut Line, name: &str, oracle: &Oracle) -> bool {
    match name {
        "recordread" => {
            line.source = Source::Rust;
            let read = oracle.read_path();
            add_left(line, read.answer, read.path);
        }
        "recordviews" => views(line, oracle),
        _ => return false,
    }
    true
}

/// Calls that change the bytes: the record, and what the bytes are then.
fn change(line: &mut Line, name: &str, oracle: &Oracle, mut bytes: Vec<u8>) -> bool {
    let (answer, path) = match name {
        "recordalert" => {
            let left = oracle.set_alert(line.index(3), line.flag(4), line.flag(5), &mut bytes);
            (left.answer, left.path)
        }
        "recordmove" => {
            line.source = Source::Model;
            let left = model::single_move(oracle, &mut bytes);
            (left.answer, left.path)
        }
        "recordwalk" => {
            line.source = Source::Model;
            let left = model::walk(oracle, &mut bytes, line.index(3));
            (left.answer, left.path)
        }
        _ => return false,
    };
    add_left(line, answer, path);
    line.add_bytes(&bytes);
    true
}

/// Calls on a path.
fn on_path(line: &mut Line, name: &str) -> bool {
    let bytes = line.bytes(2);
    let oracle = Oracle::new(line.byte(1), &bytes);
    line.source = oracle.source();
    read(line, name, &oracle) || change(line, name, &oracle, bytes.clone()) || write(line, name, &oracle)
}

/// Calls on a record of zeros and the expiry in word 1: `recordexp e`, and `recordleft e now`.
fn made(line: &mut Line, name: &str) {
    line.source = Source::Model;
    let record = Path { expiry: line.number(1), ..Path::default() };
    if name == "recordexp" {
        line.add(model::record_expiry(&record));
        return;
    }
    let left = model::record_time_left(&record, line.number(2));
    add_answer(line, left.answer);
    line.add(left.ms).add(left.path.expiry);
}

/// Answers a line of this file; whether it is one.
pub fn answer(line: &mut Line) -> bool {
    let name = line.words[0].to_string();
    match name.as_str() {
        "recordpacket" => {
            let bytes = line.bytes(1);
            let (packet, source) = packet::unless_cut(packet::read_packet(&bytes), &bytes);
            line.source = source;
            add_left(line, packet.answer, packet.path);
        }
        "recordcapture" => {
            let packet = packet::read_packet(&line.bytes(1));
            add_left(line, packet.answer, packet.path);
        }
        "recordexp" | "recordleft" => made(line, &name),
        name if name.starts_with("record") => return on_path(line, name),
        _ => return false,
    }
    true
}
