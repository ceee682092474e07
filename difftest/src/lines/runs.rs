//! Lines on runs of hop fields, read by the Rust's iterator from a path that holds the run. The iterator over an empty run is
//! one that has given its only hop field. The Rust can't be asked to make one of bytes that are no run, for that is private
//! to it, and panics: document 01's answer is 9, and an empty run.

use scion_rs::path::standard::HopFields;

use super::Line;
use crate::oracle::path::Oracle;
use crate::shapes;
use crate::tally::Source;

/// The bytes of the hop fields that are left.
fn bytes_of(run: HopFields) -> Vec<u8> {
    run.flat_map(|field| field.as_ref().to_vec()).collect()
}

/// Adds a hop field's flags, expiry byte, interfaces and code; zeros where there is none.
fn add_field(line: &mut Line, field: Option<&[u8]>) {
    let field = field.unwrap_or(&[0; 12]);
    let number = |at: usize| u16::from_be_bytes([field[at], field[at + 1]]);
    line.add(field[0]).add(field[1]).add(number(2)).add(number(4)).add_bytes(&field[6..]);
}

/// A read at the front, then one at the back, and the counts before and after.
fn ends(line: &mut Line, mut run: HopFields) {
    line.add(run.len());
    let first = run.next().map(|field| field.as_ref().to_vec());
    let last = run.next_back().map(|field| field.as_ref().to_vec());
    add_field(line, first.as_deref());
    add_field(line, last.as_deref());
    line.add(run.len());
}

/// The hop field at each end, each with the run without it.
fn parts(line: &mut Line, run: HopFields) {
    let (mut front, mut back) = (run.clone(), run);
    let first = front.next().map_or(Vec::new(), |field| field.as_ref().to_vec());
    line.add_bytes(&first).add_bytes(&bytes_of(front));
    let last = back.next_back().map_or(Vec::new(), |field| field.as_ref().to_vec());
    line.add_bytes(&last).add_bytes(&bytes_of(back));
}

/// A read for each letter, at the front or at the back: the hop field, and how many are left.
fn reads(line: &mut Line, mut run: HopFields) {
    line.add(run.len());
    for letter in line.words[2].chars() {
        let field = if letter == 'f' { run.next() } else { run.next_back() };
        let bytes = field.map_or(Vec::new(), |field| field.as_ref().to_vec());
        line.add_bytes(&bytes).add(run.len());
    }
}

/// A path with these hop fields, of as few segments as hold them, zero info fields, and the pointers at the start; one with a
/// single hop field of zeros where there are none. No path holds more than 189.
fn path_of(run: &[u8]) -> Option<Vec<u8>> {
    let count = run.len() / 12;
    if count > 3 * 63 {
        return None;
    }
    let mut left = count.max(1);
    let lengths = [(); 3].map(|()| {
        let length = left.min(63);
        left -= length;
        length
    });
    let mut bytes = vec![0; shapes::shape(lengths).bytes()];
    bytes[..4].copy_from_slice(&shapes::meta(0, 0, 0, lengths));
    let start = bytes.len() - 12 * count.max(1);
    bytes[start..][..run.len()].copy_from_slice(run);
    Some(bytes)
}

/// A call on the run that word 1 spells.
fn on_run(line: &mut Line, call: fn(&mut Line, HopFields)) -> bool {
    let mut bytes = line.bytes(1);
    let is_run = bytes.len() % 12 == 0;
    if !is_run {
        line.source = Source::Model;
        bytes.clear();
    }
    if line.words[0] != "parts" {
        line.add(if is_run { 0 } else { 9 }).add(0);
    }
    let Some(path) = path_of(&bytes) else { return false };
    let oracle = Oracle::new(1, &path);
    let mut run = oracle.standard().expect("a path").hop_fields();
    if bytes.is_empty() {
        run.next();
    }
    call(line, run);
    true
}

/// Adds how many hop fields a path or a segment has, and their bytes.
fn add_run(line: &mut Line, run: Option<HopFields>) {
    let count = run.as_ref().map_or(0, HopFields::len);
    let bytes = run.map_or(Vec::new(), bytes_of);
    line.add(count).add_bytes(&bytes);
}

/// Answers a line of this file; whether it is one.
pub fn answer(line: &mut Line) -> bool {
    let name = line.words[0].to_string();
    match name.as_str() {
        "ends" => return on_run(line, ends),
        "parts" => return on_run(line, parts),
        "reads" => return on_run(line, reads),
        "hops" => {
            let bytes = line.bytes(2);
            let oracle = Oracle::new(line.byte(1), &bytes);
            line.source = oracle.source();
            let standard = oracle.standard();
            let answer = standard.err().unwrap_or_default();
            line.add(answer.number).add(answer.value);
            add_run(line, standard.ok().map(|path| path.hop_fields()));
        }
        "seghops" => {
            let bytes = line.bytes(2);
            let oracle = Oracle::new(line.byte(1), &bytes);
            let index = line.index(3);
            line.source = oracle.source();
            add_run(line, oracle.rust_segment(index).ok().map(|segment| segment.hop_fields()));
        }
        _ => return false,
    }
    true
}
