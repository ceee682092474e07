//! A ground station: it reads a packet, decides whether it trusts the packet's path, and moves the packet on or answers it.
//!
//!     station NOW FILE
//!
//! NOW is the time in ms since 1970. The status is 0 where the packet is moved on or answered, 1 where it is refused, 2 where the
//! command is wrong or the file can't be read.

use std::process::ExitCode;

use scion_proto::{Ends, Headers, PATH_EMPTY, PATH_STANDARD, Packet, Path, Refusal};

/// The interfaces that a path may use, how long the flight takes in ms, and what is answered.
const LISTED: [u16; 6] = [1, 2, 3, 4, 5, 7];
const FLIGHT: i64 = 60_000;
const PAYLOAD: &[u8] = b"here";

/// The size of the buffers that the radio driver lends, whatever is put there.
const DRIVER_BUFFER: usize = 2304;

/// Why a packet is not taken.
enum Why {
    Refused(&'static str, Refusal),
    NotStandard(u8),
    NotListed(u16, usize),
    TooLittleTime(i64),
}

/// The refusal of a call, with what was asked.
fn of(what: &'static str) -> impl Fn(Refusal) -> Why {
    move |refusal| Why::Refused(what, refusal)
}

/// Every interface on the path must be listed.
fn check_interfaces(path_type: u8, path: &[u8]) -> Result<(), Why> {
    let count = scion_proto::interfaces_count(path_type, path).map_err(of("interfaces"))?;
    for index in 0..count {
        let found = scion_proto::interface(path_type, path, index).map_err(of("interface"))?;
        if !LISTED.contains(&found.id) {
            return Err(Why::NotListed(found.id, found.hop_field));
        }
    }
    println!("interfaces: all {count} are listed");
    Ok(())
}

/// The path must outlive the flight. When it expires stands in the packet's record: no byte is read again.
fn check_time(path: &Path, now: u64) -> Result<(), Why> {
    let left = path.time_left(now).map_err(of("time left"))?;
    if left <= FLIGHT {
        return Err(Why::TooLittleTime(left));
    }
    println!("time left: {left} ms");
    Ok(())
}

/// Whether a packet with this path has arrived: the hop pointer is at the last hop field.
fn has_arrived(path: &Path) -> bool {
    let hop_fields: usize = path.segment_lengths.iter().map(|&length| usize::from(length)).sum();
    usize::from(path.current_hop_field) + 1 == hop_fields
}

/// The answer to a packet that has arrived: the same path back, from its destination to its source. The path is the
/// front of the driver's buffer, and that front is what is sent.
fn reply_to(packet: &Packet, path: &[u8]) -> Result<Vec<u8>, Why> {
    let mut buffer = [0; DRIVER_BUFFER];
    let path = scion_proto::reverse_path(packet.path_type, path, &mut buffer).map_err(of("reply's path"))?.bytes;
    let ends = Ends {
        destination_ia: packet.source_ia,
        destination: packet.source,
        source_ia: packet.destination_ia,
        source: packet.destination,
    };
    let headers = Headers::new(&ends, packet.path_type, path.len(), packet.next_header, PAYLOAD.len(), packet.flow_id);
    let mut reply = vec![0; headers.length(path.len())];
    scion_proto::write_headers(&headers, path, &mut reply).map_err(of("reply"))?;
    reply.extend_from_slice(PAYLOAD);
    Ok(reply)
}

/// What the station does with a packet.
fn take(bytes: &mut [u8], now: u64) -> Result<(), Why> {
    let packet = scion_proto::read_packet(bytes).map_err(of("packet"))?;
    let path = &mut bytes[packet.path_part.start..][..packet.path_part.len];
    println!("packet: {} bytes of path, {} bytes of payload", path.len(), packet.payload_part.len);
    // An empty path stays inside one network: there is nothing to check and nothing to move.
    if packet.path_type != PATH_EMPTY {
        // Only a standard path has interfaces and an expiry: the record of any other is zero, and its 0 is no expiry.
        if packet.path_type != PATH_STANDARD {
            return Err(Why::NotStandard(packet.path_type));
        }
        check_interfaces(packet.path_type, path)?;
        check_time(&packet.path, now)?;
        if !has_arrived(&packet.path) {
            let moved = scion_proto::single_move(packet.path_type, path).map_err(of("move"))?;
            println!("moved on: info field {}, hop field {}", moved.current_info_field, moved.current_hop_field);
            return Ok(());
        }
    }
    print!("reply:");
    for byte in reply_to(&packet, path)? {
        print!(" {byte:02X}");
    }
    println!();
    Ok(())
}

fn main() -> ExitCode {
    let arguments: Vec<String> = std::env::args().skip(1).collect();
    let [now, file] = arguments.as_slice() else {
        eprintln!("usage: station NOW FILE, NOW in ms since 1970");
        return ExitCode::from(2);
    };
    let Ok(now) = now.parse() else {
        eprintln!("station: NOW is not a number");
        return ExitCode::from(2);
    };
    let mut bytes = match std::fs::read(file) {
        Ok(bytes) => bytes,
        Err(error) => {
            eprintln!("{file}: {error}");
            return ExitCode::from(2);
        }
    };
    match take(&mut bytes, now) {
        Ok(()) => return ExitCode::SUCCESS,
        Err(Why::Refused(what, refusal)) => println!("{what} refused: {refusal}"),
        Err(Why::NotStandard(path_type)) => {
            println!("path refused: type {path_type} is not a standard path, and has no expiry");
        }
        Err(Why::NotListed(id, hop_field)) => println!("interface {id} of hop field {hop_field} is not listed"),
        Err(Why::TooLittleTime(left)) => println!("the path has {left} ms left, the flight takes {FLIGHT}"),
    }
    ExitCode::from(1)
}
