//! Times of the Rust, of plain C and of the library in one process on the same inputs: medians over batches, ratios, and cost
//! against hop fields.

use std::hint::black_box;

use bytes::Bytes;
use scion_proto::{Ends, calls};
use scion_rs::address::{HostAddr, IsdAsn, ScionAddr};
use scion_rs::packet::{ByEndpoint, FlowId, ScionHeaders, ScionPacketRaw};
use scion_rs::path::{DataplanePath, Path, PathType};
use scion_rs::wire_encoding::{WireDecode, WireDecodeWithContext, WireEncode};

use crate::model::Shape;
use crate::plain;
use crate::random::Random;
use crate::shapes::{self, Lengths, PacketParts, Pointers};

/// How many inputs of one shape are gone through in turn.
const INPUTS: usize = 16;
/// How many batches a median is taken over.
const BATCHES: usize = 41;
/// About how long a batch takes, in ns.
const BATCH_NS: f64 = 1_000_000.0;

/// Runs a call so many times.
type Loop = Box<dyn FnMut(usize)>;

/// One call on inputs of one shape, on each side.
struct Row {
    call: &'static str,
    size: String,
    hop_fields: usize,
    loops: Loops,
}

/// The loops of a call; the Rust has no moves, and they are not written in plain C.
struct Loops {
    rust: Option<Loop>,
    plain: Option<Loop>,
    ours: Loop,
}

/// What was measured of a call: ns, or none where a side lacks it.
#[derive(Clone, Copy)]
struct Found {
    rust: Option<f64>,
    plain: Option<f64>,
    ours: f64,
}

/// Inputs of one shape: paths, and packets that hold them.
struct Inputs {
    paths: Vec<Vec<u8>>,
    packets: Vec<Vec<u8>>,
    shape: Shape,
}

impl Inputs {
    fn new(lengths: Lengths, kinds: u8) -> Self {
        let mut random = Random::new(77);
        let paths: Vec<Vec<u8>> = (0..INPUTS).map(|_| path(&mut random, lengths)).collect();
        let packet = |path: &Vec<u8>| {
            let parts = PacketParts { kinds, path_type: 1, path: path.clone(), payload: 64 };
            shapes::packet_of(&mut Random::new(78), &parts)
        };
        let packets = paths.iter().map(packet).collect();
        Self { paths, packets, shape: shapes::shape(lengths) }
    }
}

/// A path at its start that moves are not refused on.
fn path(random: &mut Random, lengths: Lengths) -> Vec<u8> {
    let mut bytes = shapes::path_of(random, lengths, Pointers::Start);
    let shape = shapes::shape(lengths);
    for k in 0..shape.info_fields {
        bytes[shape.info_at(k)] &= !2;
    }
    bytes
}

/// Byte strings of the Rust that are not counted: the cheapest that it can be given.
fn kept(inputs: &[Vec<u8>]) -> Vec<Bytes> {
    inputs.iter().map(|bytes| Bytes::from_static(bytes.clone().leak())).collect()
}

/// The Rust reading a path.
fn rust_path(bytes: &Bytes) -> DataplanePath {
    let mut bytes = black_box(bytes).clone();
    let length = bytes.len();
    DataplanePath::decode_with_context(&mut bytes, (PathType::Scion, length)).expect("a path that is read")
}

/// The Rust computing the expiry of a path that it has read.
fn rust_expiry(path: &DataplanePath) {
    if let DataplanePath::Standard(path) = path {
        black_box(path.expiry_time());
    }
}

/// A loop over inputs in turn.
fn over<T: 'static>(inputs: Vec<T>, mut call: impl FnMut(&T) + 'static) -> Loop {
    assert_eq!(inputs.len(), INPUTS);
    Box::new(move |times| {
        for index in 0..times {
            call(black_box(&inputs[index % INPUTS]));
        }
    })
}

/// The Rust splitting packets.
fn rust_packets(inputs: &Inputs) -> Loop {
    over(kept(&inputs.packets), |bytes| {
        let mut bytes = bytes.clone();
        black_box(ScionPacketRaw::decode(&mut bytes)).expect("a packet that is read");
    })
}

/// Packets split.
fn packet_row(inputs: &Inputs) -> Loops {
    let plain = over(inputs.packets.clone(), |bytes| {
        black_box(plain::read_packet(bytes));
    });
    let ours = over(inputs.packets.clone(), |bytes| {
        black_box(calls::read_packet(bytes));
    });
    Loops { rust: Some(rust_packets(inputs)), plain: Some(plain), ours }
}

/// Packets split by the capture reading.
fn capture_row(inputs: &Inputs) -> Loops {
    let plain = over(inputs.packets.clone(), |bytes| {
        black_box(plain::read_capture(bytes));
    });
    let ours = over(inputs.packets.clone(), |bytes| {
        black_box(calls::read_capture(bytes));
    });
    Loops { rust: Some(rust_packets(inputs)), plain: Some(plain), ours }
}

/// Packets split, and the expiry of their paths.
fn packet_expiry_row(inputs: &Inputs) -> Loops {
    let rust = over(kept(&inputs.packets), |bytes| {
        let mut bytes = bytes.clone();
        let packet = black_box(ScionPacketRaw::decode(&mut bytes)).expect("a packet that is read");
        rust_expiry(&packet.headers.path);
    });
    let plain = over(inputs.packets.clone(), |bytes| {
        black_box(plain::record_expiry(black_box(plain::read_packet(bytes)).path));
    });
    let ours = over(inputs.packets.clone(), |bytes| {
        black_box(calls::record_expiry(black_box(calls::read_packet(bytes)).path));
    });
    Loops { rust: Some(rust), plain: Some(plain), ours }
}

/// Paths read.
fn path_row(inputs: &Inputs) -> Loops {
    let rust = over(kept(&inputs.paths), |bytes| {
        black_box(rust_path(bytes));
    });
    let plain = over(inputs.paths.clone(), |bytes| {
        black_box(plain::read_path(1, bytes));
    });
    let ours = over(inputs.paths.clone(), |bytes| {
        black_box(calls::read_path(1, bytes));
    });
    Loops { rust: Some(rust), plain: Some(plain), ours }
}

/// Paths read, and the expiry of their records.
fn path_expiry_row(inputs: &Inputs) -> Loops {
    let rust = over(kept(&inputs.paths), |bytes| {
        rust_expiry(&black_box(rust_path(bytes)));
    });
    let plain = over(inputs.paths.clone(), |bytes| {
        black_box(plain::record_expiry(black_box(plain::read_path(1, bytes)).path));
    });
    let ours = over(inputs.paths.clone(), |bytes| {
        black_box(calls::record_expiry(black_box(calls::read_path(1, bytes)).path));
    });
    Loops { rust: Some(rust), plain: Some(plain), ours }
}

/// The expiry of paths by their bytes.
fn expiry_row(inputs: &Inputs) -> Loops {
    let rust = over(kept(&inputs.paths), |bytes| {
        rust_expiry(&rust_path(bytes));
    });
    let plain = over(inputs.paths.clone(), |bytes| {
        black_box(plain::expiry(1, bytes));
    });
    let ours = over(inputs.paths.clone(), |bytes| {
        black_box(calls::expiry(1, bytes));
    });
    Loops { rust: Some(rust), plain: Some(plain), ours }
}

/// Paths read and turned into a destination of so many bytes, beside the Rust's loop.
fn turn_loops(inputs: &Inputs, size: usize, rust: Loop) -> Loops {
    let [mut plain_room, mut room] = [(); 2].map(|()| vec![0; size]);
    let plain = over(inputs.paths.clone(), move |bytes| {
        black_box(plain::reverse_path(1, bytes, black_box(&mut plain_room)));
    });
    let ours = over(inputs.paths.clone(), move |bytes| {
        black_box(calls::reverse_path(1, bytes, black_box(&mut room)));
    });
    Loops { rust: Some(rust), plain: Some(plain), ours }
}

/// Paths read and turned into just as many bytes.
fn turn_row(inputs: &Inputs) -> Loops {
    let size = inputs.shape.bytes();
    let mut room = vec![0; size];
    let rust = over(kept(&inputs.paths), move |bytes| {
        black_box(rust_path(bytes).reverse_to_slice(black_box(&mut room)));
    });
    turn_loops(inputs, size, rust)
}

/// Paths read and turned into the front of a driver's buffer, which the Rust cuts itself.
fn buffer_row(inputs: &Inputs) -> Loops {
    let mut room = vec![0; shapes::DRIVER_BUFFER];
    let ends = ByEndpoint::with_cloned(IsdAsn::WILDCARD);
    let rust = over(kept(&inputs.paths), move |bytes| {
        black_box(Path::new(rust_path(bytes), ends, None).reverse_to_slice(black_box(&mut room)));
    });
    turn_loops(inputs, shapes::DRIVER_BUFFER, rust)
}

/// The ends of the headers that are written: IPv4 hosts.
pub fn ends() -> Ends {
    shapes::ends(&mut Random::new(79), 0, 0)
}

/// Headers made for a path and written.
fn write_row(inputs: &Inputs) -> Loops {
    let ends = ends();
    let rooms = [(); 3].map(|()| vec![0; 36 + inputs.shape.bytes()]);
    let [mut rust_room, mut plain_room, mut room] = rooms;
    let address = |ia: u64, bytes: [u8; 16]| {
        let [a, b, c, d, ..] = bytes;
        ScionAddr::new(IsdAsn(ia), HostAddr::V4([a, b, c, d].into()))
    };
    let endhosts = ByEndpoint {
        source: address(ends.source_ia, ends.source.bytes),
        destination: address(ends.destination_ia, ends.destination.bytes),
    };
    let paths: Vec<Path> = kept(&inputs.paths)
        .iter()
        .map(|bytes| Path::new(rust_path(bytes), endhosts.map(ScionAddr::isd_asn), None))
        .collect();
    let rust = over(paths, move |path| {
        let headers = ScionHeaders::new(black_box(&endhosts), path, 17, 64, FlowId::default()).expect("headers");
        black_box(headers.encode_to(&mut black_box(&mut rust_room[..]))).expect("room");
    });
    let plain = over(inputs.paths.clone(), move |bytes| {
        black_box(plain::write_new_headers(black_box(&ends), 1, 17, 64, 1, bytes, black_box(&mut plain_room)));
    });
    let ours = over(inputs.paths.clone(), move |bytes| {
        black_box(calls::write_new_headers(black_box(&ends), 1, 17, 64, 1, bytes, black_box(&mut room)));
    });
    Loops { rust: Some(rust), plain: Some(plain), ours }
}

/// A single move from the start, the changed bytes put back before it.
fn move_row(inputs: &Inputs) -> Loops {
    let mut room = inputs.paths[0].clone();
    let head = 4 + 8 * inputs.shape.info_fields;
    let ours = over(inputs.paths.clone(), move |bytes| {
        room[..head].copy_from_slice(&bytes[..head]);
        black_box(calls::single_move(1, black_box(&mut room)));
    });
    Loops { rust: None, plain: None, ours }
}

/// A walk from the start to the last hop field, the changed bytes put back before it.
fn walk_row(inputs: &Inputs) -> Loops {
    let mut room = inputs.paths[0].clone();
    let head = 4 + 8 * inputs.shape.info_fields;
    let ours = over(inputs.paths.clone(), move |bytes| {
        room[..head].copy_from_slice(&bytes[..head]);
        black_box(calls::walk(1, black_box(&mut room), usize::MAX));
    });
    Loops { rust: None, plain: None, ours }
}

/// What makes the loops of a row.
type Maker = fn(&Inputs) -> Loops;

/// The calls.
const CALLS: [(&str, Maker); 11] = [
    ("packet decode", packet_row),
    ("capture decode", capture_row),
    ("packet decode, then expiry", packet_expiry_row),
    ("path decode", path_row),
    ("path decode, then expiry", path_expiry_row),
    ("expiry", expiry_row),
    ("turn", turn_row),
    ("turn into 2,304 bytes", buffer_row),
    ("header writing", write_row),
    ("single move", move_row),
    ("walk to the end", walk_row),
];

/// The shapes: small, typical, largest that moves admit, largest that fits into a header.
const SIZES: [(&str, Lengths, u8); 4] = [
    ("1 hop field", [1, 0, 0], 0x00),
    ("3 segments, 10 hop fields", [3, 4, 3], 0x00),
    ("3 segments, 64 hop fields", [22, 21, 21], 0x00),
    ("largest header, 80 hop fields", [63, 17, 0], 0x01),
];

/// The hop fields of the two shapes of three segments, which differ in nothing else.
const FEW: usize = 10;
const MANY: usize = 64;

/// All rows; moves only where they are not refused, and the capture reading of one shape.
fn rows() -> Vec<Row> {
    let mut rows = Vec::new();
    for (call, make) in CALLS {
        for (size, lengths, kinds) in SIZES {
            let inputs = Inputs::new(lengths, kinds);
            let hop_fields = inputs.shape.hop_fields;
            let is_move = call == "single move" || call == "walk to the end";
            let is_last = call == "single move" && hop_fields == 1;
            let is_other = call == "capture decode" && hop_fields != FEW;
            if (is_move && hop_fields > 64) || is_last || is_other {
                continue;
            }
            rows.push(Row { call, size: String::from(size), hop_fields, loops: make(&inputs) });
        }
    }
    rows
}

/// The packets and the paths that are timed, by shape.
pub fn timed() -> Vec<(Vec<Vec<u8>>, Vec<Vec<u8>>)> {
    let inputs = SIZES.map(|(_, lengths, kinds)| Inputs::new(lengths, kinds));
    inputs.into_iter().map(|inputs| (inputs.packets, inputs.paths)).collect()
}

/// A time as the system tells it.
#[repr(C)]
#[derive(Default)]
struct Time {
    seconds: i64,
    nanoseconds: i64,
}

unsafe extern "C" {
    fn clock_gettime(clock: i32, time: *mut Time) -> i32;
}

/// The processor time of this thread in ns: other programs on the machine don't count.
fn processor_ns() -> f64 {
    const THREAD_PROCESSOR_TIME: i32 = 3;
    let mut time = Time::default();
    let status = unsafe { clock_gettime(THREAD_PROCESSOR_TIME, &mut time) };
    assert_eq!(status, 0);
    time.seconds as f64 * 1e9 + time.nanoseconds as f64
}

/// How many ns a call takes in a batch of so many.
fn batch(run: &mut Loop, times: usize) -> f64 {
    let start = processor_ns();
    run(times);
    (processor_ns() - start) / times as f64
}

/// How many calls make a batch.
fn times_for(run: &mut Loop) -> usize {
    run(200);
    let one = batch(run, 500).max(1.0);
    ((BATCH_NS / one) as usize).max(50)
}

/// The median of numbers.
fn median(mut numbers: Vec<f64>) -> f64 {
    numbers.sort_by(f64::total_cmp);
    numbers[numbers.len() / 2]
}

/// A loop, how many calls make a batch of it, and the times of its batches.
struct Timed<'a> {
    run: &'a mut Loop,
    times: usize,
    found: Vec<f64>,
}

/// The medians of a row, of each side that there is. Batches of the sides take turns.
fn measure(loops: &mut Loops) -> Found {
    let sides = [loops.rust.as_mut(), loops.plain.as_mut(), Some(&mut loops.ours)];
    let mut sides = sides.map(|run| run.map(|run| Timed { times: times_for(run), run, found: Vec::new() }));
    for _ in 0..BATCHES {
        for side in sides.iter_mut().flatten() {
            side.found.push(batch(side.run, side.times));
        }
    }
    let [rust, plain, ours] = sides.map(|side| side.map(|side| median(side.found)));
    Found { rust, plain, ours: ours.expect("the library's times") }
}

/// A cell: a number, or a dash.
fn cell(number: Option<f64>, digits: usize) -> String {
    number.map_or(String::from("–"), |number| format!("{number:.digits$}"))
}

/// Holds plain C to the library; whether it answers the same.
fn hold_plain() -> bool {
    let held = plain::held(None);
    match &held.differed {
        Some(difference) => println!("plain C is not timed, for it differs: {difference}"),
        None => println!("Plain C answered as the library on {} calls before it was timed.\n", held.compared),
    }
    held.differed.is_none()
}

/// Times every row and prints the tables.
pub fn run() -> bool {
    if !hold_plain() {
        return false;
    }
    println!(
        "Medians of {BATCHES} batches, processor time; each call reads its input first, the Rust's from byte strings"
    );
    println!(
        "that are not counted. The library and plain C store a path's expiry when they read it, so that a row \"then expiry\""
    );
    println!(
        "only takes it from the record; the Rust computes it when it is asked, and goes through the packaged time library."
    );
    println!("The Rust has no moves, and they are not written in plain C.\n");
    println!("| call | input | Rust, ns | plain C, ns | library, ns | library / Rust | library / plain C |");
    println!("|---|---|---:|---:|---:|---:|---:|");
    let mut all: Vec<(&str, usize, Found)> = Vec::new();
    for mut row in rows() {
        let found = measure(&mut row.loops);
        let ratio = |other: Option<f64>| cell(other.map(|other| found.ours / other), 2);
        println!(
            "| {} | {} | {} | {} | {:.1} | {} | {} |",
            row.call,
            row.size,
            cell(found.rust, 1),
            cell(found.plain, 1),
            found.ours,
            ratio(found.rust),
            ratio(found.plain)
        );
        all.push((row.call, row.hop_fields, found));
    }
    println!();
    println!("Cost of one more hop field, from {FEW} to {MANY} hop fields in three segments:\n");
    println!("| call | Rust, ns | plain C, ns | library, ns |");
    println!("|---|---:|---:|---:|");
    for (call, _) in CALLS {
        slope(call, &all);
    }
    true
}

/// Prints what a hop field costs in a call.
fn slope(call: &str, all: &[(&str, usize, Found)]) {
    let with = |hop_fields: usize| all.iter().find(|row| row.0 == call && row.1 == hop_fields).map(|row| row.2);
    let (Some(few), Some(many)) = (with(FEW), with(MANY)) else { return };
    let each = |of: fn(&Found) -> Option<f64>| {
        let difference = of(&many).zip(of(&few)).map(|(many, few)| many - few);
        cell(difference.map(|difference| difference / (MANY - FEW) as f64), 2)
    };
    println!(
        "| {call} | {} | {} | {} |",
        each(|found| found.rust),
        each(|found| found.plain),
        each(|found| Some(found.ours))
    );
}

/// Prints the rows that can be counted: index, call, input, its hop fields, and which sides have it.
pub fn names() -> bool {
    for (index, row) in rows().iter().enumerate() {
        let sides = [("rust", row.loops.rust.is_some()), ("plain", row.loops.plain.is_some()), ("library", true)];
        let sides: Vec<&str> = sides.into_iter().filter(|side| side.1).map(|side| side.0).collect();
        println!("{index}|{}|{}|{}|{}", row.call, row.size, row.hop_fields, sides.join(" "));
    }
    true
}

/// Runs one row's loop so many times and nothing else: for a program that counts instructions.
pub fn count(index: usize, side: &str, times: usize) -> bool {
    let mut loops = rows().into_iter().nth(index).expect("a row").loops;
    let run = match side {
        "rust" => loops.rust.as_mut(),
        "plain" => loops.plain.as_mut(),
        _ => Some(&mut loops.ours),
    };
    let Some(run) = run else { return false };
    run(times);
    true
}
