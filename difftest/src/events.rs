//! Whole lists of events on the compiled library, held to demand 3's claim.
//!
//! The claim is checked from definitions of document 01 alone: accumulators by the path begun with, hop field bytes,
//! entry and exit interfaces, counts and what the ends hold. Beside it, every record that an accepted call hands back has
//! the expiry of the path begun with (request 2026-01). At an arrival the end lends a destination of any size, and holds
//! the front alone (request 2026-08).

use scion_proto::{Answered, WrittenPath, calls};

use crate::check::Checker;
use crate::model::{self, Shape};
use crate::oracle::path::Oracle;
use crate::plant;
use crate::random::Random;
use crate::shapes::{self, Pointers};
use crate::tally::{Call, Source, hex};

/// The first sender and the other end.
const FIRST: usize = 0;
const OTHER: usize = 1;

/// A path's bytes, the end it goes to, and its count of moves.
#[derive(Clone)]
struct Packet {
    bytes: Vec<u8>,
    to: usize,
    count: usize,
}

/// What can happen; packets are named by their place among those on the way.
#[derive(Debug, Clone, Copy)]
enum Event {
    Send(usize),
    Move(usize),
    Walk(usize, usize),
    Loss(usize),
    Doubling(usize),
    Arrival(usize, usize),
}

/// The path begun with and what follows from it alone.
struct Begun {
    bytes: Vec<u8>,
    shape: Shape,
    accumulators: Vec<u16>,
    expiry: u64,
    reply: Vec<u8>,
}

/// What the ends hold and what is on the way.
struct State {
    held: [Option<Vec<u8>>; 2],
    packets: Vec<Packet>,
    has_arrived: bool,
}

/// A path of demand 3's premises.
fn begun(random: &mut Random, lengths: shapes::Lengths) -> Begun {
    let mut bytes = shapes::path_of(random, lengths, Pointers::Start);
    let shape = shapes::shape(lengths);
    bytes[..4].copy_from_slice(&shapes::meta(0, 0, 0, lengths));
    let peering = shape.info_fields == 2 && random.flip();
    for k in 0..shape.info_fields {
        let at = shape.info_at(k);
        bytes[at] = bytes[at] & !2 | if peering { 2 } else { 0 };
    }
    let accumulators = model::accumulators(&bytes, &shape);
    let expiry = model::expiry(&bytes, &shape);
    let reply = reply(&bytes);
    Begun { bytes, shape, accumulators, expiry, reply }
}

/// The path walked to its last hop field by the model and turned by the Rust.
fn reply(begun: &[u8]) -> Vec<u8> {
    let mut walked = begun.to_vec();
    model::walk(&Oracle::new(1, begun), &mut walked, usize::MAX);
    let mut turned = vec![0; begun.len()];
    Oracle::new(1, &walked).reverse_path(&mut turned);
    turned
}

/// Lengths of at most 64 hop fields.
fn lengths(random: &mut Random) -> shapes::Lengths {
    loop {
        let lengths = shapes::lengths(random);
        if lengths.iter().sum::<usize>() <= 64 {
            return lengths;
        }
    }
}

/// Any event; wrong names and wrong sizes among them.
fn event(random: &mut Random, state: &State, begun: &Begun) -> Event {
    let packet = random.below(state.packets.len() + 1);
    let exact = begun.bytes.len();
    match random.below(16) {
        0..2 => Event::Send(FIRST),
        2..4 => Event::Send(OTHER),
        4..7 => Event::Move(packet),
        7..10 => Event::Walk(packet, random.pick(&[0, 1, 2, 3, begun.shape.hop_fields, usize::MAX])),
        10 => Event::Loss(packet),
        11 => Event::Doubling(packet),
        12 => Event::Arrival(packet, random.below(exact)),
        13 => Event::Arrival(packet, random.between(exact, shapes::DRIVER_BUFFER)),
        _ => Event::Arrival(packet, random.pick(&shapes::sizes(exact))),
    }
}

/// A random path and a random list of events on it.
pub fn random_list(checker: &mut Checker, random: &mut Random) {
    let lengths = lengths(random);
    let begun = begun(random, lengths);
    let mut state = State { held: [Some(begun.bytes.clone()), None], packets: Vec::new(), has_arrived: false };
    let mut list = Vec::new();
    for _ in 0..random.between(4, 60) {
        let event = event(random, &state, &begun);
        list.push(event);
        happen(checker, &mut state, &begun, event, &list);
        hold(checker, &state, &begun, &list);
        checker.tally.events += 1;
        if checker.is_done() {
            return;
        }
    }
    round_trips(checker, &mut state, &begun, &mut list);
}

/// Two trips there and back at the list's end, so that arrivals take place in every list: each first into a destination
/// that lacks a byte, then into one with room.
fn round_trips(checker: &mut Checker, state: &mut State, begun: &Begun, list: &mut Vec<Event>) {
    let (exact, longest) = (begun.bytes.len(), shapes::DRIVER_BUFFER);
    for (end, size) in [(FIRST, exact + 1), (OTHER, longest), (FIRST, longest), (OTHER, exact)] {
        let last = state.packets.len();
        let arrivals = [exact - 1, size].map(|size| Event::Arrival(last, size));
        for event in [Event::Send(end), Event::Walk(last, usize::MAX)].into_iter().chain(arrivals) {
            list.push(event);
            happen(checker, state, begun, event, list);
            hold(checker, state, begun, list);
            checker.tally.events += 1;
        }
    }
    let is_through = state.has_arrived && state.held[OTHER].as_ref() == Some(&begun.reply);
    claim(checker, Call::ReversePath, begun, list, is_through, "two trips end with the reply held");
}

/// Carries out an event on the library.
fn happen(checker: &mut Checker, state: &mut State, begun: &Begun, event: Event, list: &[Event]) {
    match event {
        Event::Send(end) => send(state, end),
        Event::Loss(at) if at < state.packets.len() => drop(state.packets.remove(at)),
        Event::Doubling(at) if at < state.packets.len() => state.packets.push(state.packets[at].clone()),
        Event::Move(at) if at < state.packets.len() => single_move(checker, state, begun, at, list),
        Event::Walk(at, limit) if at < state.packets.len() => walk(checker, state, begun, at, limit, list),
        Event::Arrival(at, size) if at < state.packets.len() => arrive(checker, state, begun, at, size, list),
        _ => {}
    }
}

/// A copy of what an end holds goes to the other.
fn send(state: &mut State, end: usize) {
    if let Some(bytes) = &state.held[end] {
        state.packets.push(Packet { bytes: bytes.clone(), to: 1 - end, count: 0 });
    }
}

/// A single move; a refusal must be 15 and change nothing.
fn single_move(checker: &mut Checker, state: &mut State, begun: &Begun, at: usize, list: &[Event]) {
    let packet = &mut state.packets[at];
    let before = packet.bytes.clone();
    let mut answer = calls::single_move(1, &mut packet.bytes);
    plant::lent(&checker.plant, Call::Move, answer.answer, &mut packet.bytes);
    plant::answer(&checker.plant, Call::Move, &mut answer);
    let is_last = usize::from(before[0] & 63) + 1 == begun.shape.hop_fields;
    let expected = if is_last { 15 } else { 0 };
    checker.tally.count(Call::Move, answer.answer(), Source::Model);
    claim(checker, Call::Move, begun, list, answer.answer.number == expected, "15 just at the last hop field");
    if answer.answer.number == 0 {
        packet.count += 1;
        let is_kept = answer.path.expiry == begun.expiry;
        claim(checker, Call::Move, begun, list, is_kept, "a move leaves the expiry as it was");
    } else {
        claim(checker, Call::Move, begun, list, packet.bytes == before, "a refused move changes nothing");
    }
}

/// A walk; the claim also holds after each move inside it.
fn walk(checker: &mut Checker, state: &mut State, begun: &Begun, at: usize, limit: usize, list: &[Event]) {
    let before = state.packets[at].clone();
    let moves = walked(checker, begun, &mut state.packets[at], limit, list);
    let inside = if moves > 12 { vec![0, 1, 2, moves / 2, moves - 1] } else { (0..moves).collect() };
    for limit in inside {
        let mut packet = before.clone();
        let made = walked(checker, begun, &mut packet, limit, list);
        claim(checker, Call::Walk, begun, list, made == limit, "a walk makes as many moves as its limit");
        stands(checker, begun, &packet, list);
    }
}

/// A walk of a packet, its count taken on; how many moves it reports. It is never refused.
fn walked(checker: &mut Checker, begun: &Begun, packet: &mut Packet, limit: usize, list: &[Event]) -> usize {
    let mut walk = calls::walk(1, &mut packet.bytes, limit);
    plant::lent(&checker.plant, Call::Walk, walk.answer, &mut packet.bytes);
    plant::answer(&checker.plant, Call::Walk, &mut walk);
    checker.tally.count(Call::Walk, walk.answer(), Source::Model);
    packet.count = packet.count.wrapping_add(walk.moves);
    let is_last = usize::from(packet.bytes[0] & 63) + 1 == begun.shape.hop_fields;
    let is_told = walk.answer.number == 0 && walk.arrived == u8::from(is_last);
    claim(
        checker,
        Call::Walk,
        begun,
        list,
        is_told,
        "a walk is accepted and tells whether it stands at the last hop field",
    );
    let is_kept = walk.path.expiry == begun.expiry;
    claim(checker, Call::Walk, begun, list, is_kept, "a walk leaves the expiry as it was");
    walk.moves
}

/// An arrival at the last hop field: the packet is turned into a destination of any size that the end lends, and the end
/// then holds the front alone. A shorter one than the path is refused, and nothing changes.
fn arrive(checker: &mut Checker, state: &mut State, begun: &Begun, at: usize, size: usize, list: &[Event]) {
    let packet = &state.packets[at];
    if usize::from(packet.bytes[0] & 63) + 1 != begun.shape.hop_fields {
        return;
    }
    let (to, count) = (packet.to, packet.count);
    let mut dst = vec![0x5c; size];
    let written = turned(checker, &packet.bytes, &mut dst);
    let length = begun.bytes.len();
    let (number, front) = if size < length { (9, 0) } else { (0, length) };
    claim(checker, Call::ReversePath, begun, list, written.answer.number == number, "9 just for a shorter destination");
    claim(checker, Call::ReversePath, begun, list, written.length == front, "a turn is as long as B, 0 where refused");
    let is_untouched = dst[front..].iter().all(|byte| *byte == 0x5c);
    claim(checker, Call::ReversePath, begun, list, is_untouched, "only the front is written, nothing where refused");
    if written.answer.number != 0 {
        return;
    }
    claim(checker, Call::ReversePath, begun, list, count + 1 == begun.shape.hop_fields, "an arrival took N - 1 moves");
    let is_kept = written.path.expiry == begun.expiry;
    claim(checker, Call::ReversePath, begun, list, is_kept, "a turn leaves the expiry as it was");
    state.has_arrived |= to == OTHER;
    state.held[to] = Some(model::held(&dst, written.length));
    state.packets.remove(at);
}

/// A turn by the library.
fn turned(checker: &mut Checker, bytes: &[u8], dst: &mut [u8]) -> WrittenPath {
    let mut written = calls::reverse_path(1, bytes, dst);
    plant::front(&checker.plant, Call::ReversePath, &mut written, dst);
    plant::lent(&checker.plant, Call::ReversePath, written.answer, dst);
    plant::answer(&checker.plant, Call::ReversePath, &mut written);
    checker.tally.count(Call::ReversePath, written.answer(), Source::Model);
    written
}

/// The claim on what the ends hold and on every packet on the way.
fn hold(checker: &mut Checker, state: &State, begun: &Begun, list: &[Event]) {
    let is_held = state.held[FIRST].as_ref() == Some(&begun.bytes);
    claim(checker, Call::ReversePath, begun, list, is_held, "the first sender holds what it began with");
    let other = state.has_arrived.then_some(&begun.reply);
    let is_held = state.held[OTHER].as_ref() == other;
    claim(checker, Call::ReversePath, begun, list, is_held, "the other end holds nothing, or always the same reply");
    for packet in &state.packets {
        stands(checker, begun, packet, list);
    }
}

/// The claim on a packet: its count, the hop field it stands on, its accumulator, its interfaces.
fn stands(checker: &mut Checker, begun: &Begun, packet: &Packet, list: &[Event]) {
    let read = calls::read_path(1, &packet.bytes);
    let shape = Shape::of(&read.path);
    let pointer = shape.hop_pointer;
    let is_read = read.answer.number == 0 && read.length == begun.bytes.len() && pointer < begun.shape.hop_fields;
    claim(checker, Call::Move, begun, list, is_read, "a packet is read");
    if !is_read {
        return;
    }
    claim(checker, Call::Move, begun, list, packet.count == pointer, "the count is the hop pointer");
    let is_kept = read.path.expiry == begun.expiry;
    claim(checker, Call::Move, begun, list, is_kept, "a packet is read with the expiry begun with");
    let is_out = packet.to == OTHER;
    let at = if is_out { pointer } else { begun.shape.hop_fields - 1 - pointer };
    let met = &packet.bytes[shape.hop_at(pointer)..][..12];
    let own = &begun.bytes[begun.shape.hop_at(at)..][..12];
    claim(checker, Call::Move, begun, list, met == own, "the hop field's bytes are those begun with");
    let met = model::accumulator(&packet.bytes, &shape, shape.info_pointer);
    claim(checker, Call::Move, begun, list, met == begun.accumulators[at], "the accumulator is the one by B alone");
    let met = model::entry_and_exit(&packet.bytes, &shape, pointer);
    let (entry, exit) = model::entry_and_exit(&begun.bytes, &begun.shape, at);
    let own = if is_out { (entry, exit) } else { (exit, entry) };
    claim(checker, Call::Move, begun, list, met == own, "entry and exit are as in B, exchanged on the way back");
}

/// Counts a claim, and reports it with the path and the list where it doesn't hold.
fn claim(checker: &mut Checker, call: Call, begun: &Begun, list: &[Event], holds: bool, words: &str) {
    checker.tally.claims += 1;
    if !holds {
        let input = format!("events on {}: {list:?}", hex(&begun.bytes));
        checker.tally.differ(call, input, String::from("does not hold"), String::from(words));
    }
}
