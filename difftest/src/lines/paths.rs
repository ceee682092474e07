//! Lines on paths: word 1 is the type, word 2 the bytes.

use scion_proto::{Answer, Part, Path};

use super::Line;
use crate::model;
use crate::oracle::path::Oracle;
use crate::tally::Source;

/// Adds a number and a value.
pub fn add_answer(line: &mut Line, answer: Answer) {
    line.add(answer.number).add(answer.value);
}

/// Adds the six numbers of a record's meta header; the lines on records add the expiry.
pub fn add_record(line: &mut Line, path: Path) {
    line.add(path.current_info_field).add(path.current_hop_field).add(path.reserved);
    for length in path.segment_lengths {
        line.add(length);
    }
}

/// Adds a part.
fn add_part(line: &mut Line, part: Part) {
    line.add(part.start).add(part.len);
}

/// Adds where a field lies, and its bytes; none where there is none.
fn add_located(line: &mut Line, answer: Answer, start: usize, length: usize, bytes: &[u8]) {
    let part = if answer.number == 0 { Part { start, len: length } } else { Part::default() };
    add_answer(line, answer);
    add_part(line, part);
    line.add_bytes(part.of(bytes));
}

/// Reading and views.
fn view(line: &mut Line, name: &str, oracle: &Oracle, bytes: &[u8]) -> bool {
    match name {
        "path" => {
            let read = oracle.read_path();
            add_answer(line, read.answer);
            line.add(read.length);
            add_record(line, read.path);
        }
        "raw" => {
            let length = oracle.length();
            line.add_bytes(&bytes[..length]);
        }
        "locinfo" => {
            let field = oracle.info_field(line.index(3));
            add_located(line, field.answer, field.start, 8, bytes);
        }
        "lochop" => {
            let field = oracle.hop_field(line.index(3));
            add_located(line, field.answer, field.start, 12, bytes);
        }
        "segment" => {
            let segment = oracle.segment(line.index(3));
            add_answer(line, segment.answer);
            add_part(line, segment.info_field);
            add_part(line, segment.hop_fields);
        }
        _ => return false,
    }
    true
}

/// Times and interfaces.
fn times(line: &mut Line, name: &str, oracle: &Oracle) -> bool {
    match name {
        "segexp" => {
            let expiry = oracle.segment_expiry(line.index(3));
            add_answer(line, expiry.answer);
            line.add(expiry.ms);
        }
        "pathexp" => {
            add_answer(line, oracle.expiry().answer);
            line.add(oracle.expiry().ms);
        }
        "left" => {
            let (left, source) = oracle.time_left(line.number(3));
            line.source = source;
            add_answer(line, left.answer);
            line.add(left.ms);
        }
        "ifcount" => {
            let (interfaces, source) = oracle.interfaces_count();
            line.source = source;
            add_answer(line, interfaces.answer);
            line.add(interfaces.count);
        }
        "iface" => {
            let (interface, source) = oracle.interface(line.index(3));
            line.source = source;
            add_answer(line, interface.answer);
            line.add(interface.hop_field).add(interface.id);
        }
        _ => return false,
    }
    true
}

/// Calls that change the bytes.
fn change(line: &mut Line, name: &str, oracle: &Oracle, mut bytes: Vec<u8>) -> bool {
    match name {
        "alert" => {
            let (is_ingress, on) = (line.flag(4), line.flag(5));
            let answer = oracle.set_alert(line.index(3), is_ingress, on, &mut bytes).answer;
            add_answer(line, answer);
        }
        "move" => {
            line.source = Source::Model;
            add_answer(line, model::single_move(oracle, &mut bytes).answer);
        }
        "walk" => {
            line.source = Source::Model;
            let walk = model::walk(oracle, &mut bytes, line.index(3));
            add_answer(line, walk.answer);
            line.add(walk.moves).add(walk.arrived);
        }
        _ => return false,
    }
    line.add_bytes(&bytes);
    true
}

/// Calls that write to a destination, word 3: the record and its expiry where the line is on records, how many bytes of
/// the destination are the path, and what it holds then.
pub fn write(line: &mut Line, name: &str, oracle: &Oracle) -> bool {
    let mut dst = line.bytes(3);
    let (written, source) = match name {
        "copy" | "recordcopy" => oracle.copy_path(&mut dst),
        "turn" | "recordturn" => oracle.reverse_path(&mut dst),
        _ => return false,
    };
    line.source = source;
    add_answer(line, written.answer);
    if name.starts_with("record") {
        add_record(line, written.path);
        line.add(written.path.expiry);
    }
    line.add(written.length).add_bytes(&dst);
    true
}

const NAMES: [&str; 15] = [
    "path", "raw", "locinfo", "lochop", "segment", "segexp", "pathexp", "left", "ifcount", "iface", "alert", "move",
    "walk", "copy", "turn",
];

/// Answers a line of this file; whether it is one.
pub fn answer(line: &mut Line) -> bool {
    let name = line.words[0].to_string();
    if !NAMES.contains(&name.as_str()) {
        return false;
    }
    let bytes = line.bytes(2);
    let oracle = Oracle::new(line.byte(1), &bytes);
    line.source = if ["path", "raw"].contains(&name.as_str()) { Source::Rust } else { oracle.source() };
    view(line, &name, &oracle, &bytes)
        || times(line, &name, &oracle)
        || change(line, &name, &oracle, bytes.clone())
        || write(line, &name, &oracle)
}
