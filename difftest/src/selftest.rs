//! The harness made to fail: every byte of every answer, lent bytes and their guards, and the ends of paths that are
//! written are made wrong in turn, and plausible wrong rules of moving, of interfaces, of times, of arrivals, of padding, of
//! short packets, of acceptance and of filing are put in the right one's place. Each has to be reported.

use std::mem::offset_of;

use scion_proto::{
    Answer, Capture, Expiry, Headers, HopField, InfoField, Interface, InterfaceCount, Packet, PathAnswer, PathRead,
    Segment, TimeLeft, Walk, WrittenPath,
};

use crate::check::{Checker, Input};
use crate::model::{self, TWISTS, Twist};
use crate::plant::{self, Fault, Plant};
use crate::random::Random;
use crate::shapes::{self, Pointers};
use crate::tally::{CALLS, Call};
use crate::{events, lines, list, packets, paths, plain, records, writing};

/// The bytes of a type that count: those whose change makes another value, padding left out.
fn bytes_of<T: Default + PartialEq + Copy>() -> Vec<usize> {
    let plain = T::default();
    let is_seen = |at: &usize| {
        let mut changed = plain;
        plant::flip(&mut changed, *at);
        changed != plain
    };
    (0..size_of::<T>()).filter(is_seen).collect()
}

/// The bytes of a call's answer.
fn answer_bytes(call: Call) -> Vec<usize> {
    match call {
        Call::ReadPath => bytes_of::<PathRead>(),
        Call::InfoField => bytes_of::<InfoField>(),
        Call::HopField => bytes_of::<HopField>(),
        Call::Segment => bytes_of::<Segment>(),
        Call::SegmentExpiry | Call::Expiry => bytes_of::<Expiry>(),
        Call::TimeLeft | Call::RecordTimeLeft => bytes_of::<TimeLeft>(),
        Call::InterfacesCount => bytes_of::<InterfaceCount>(),
        Call::Interface => bytes_of::<Interface>(),
        Call::SetIngressAlert | Call::SetEgressAlert | Call::Move => bytes_of::<PathAnswer>(),
        Call::CopyPath | Call::ReversePath => bytes_of::<WrittenPath>(),
        Call::Walk => bytes_of::<Walk>(),
        Call::ReadPacket => bytes_of::<Packet>(),
        Call::ReadCapture => bytes_of::<Capture>(),
        Call::RecordExpiry => bytes_of::<u64>(),
        Call::NewHeaders => bytes_of::<Headers>(),
        Call::HeadersLength => bytes_of::<usize>(),
        Call::WriteHeaders | Call::WriteNewHeaders => bytes_of::<Answer>(),
    }
}

/// Calls that never refuse.
fn is_plain(call: Call) -> bool {
    matches!(call, Call::NewHeaders | Call::HeadersLength | Call::RecordExpiry)
}

/// Calls that lend bytes: those that may refuse, but for the one on a record.
fn lends(call: Call) -> bool {
    !is_plain(call) && call != Call::RecordTimeLeft
}

/// The faults of a path that is written to the front of a destination.
const FRONT_FAULTS: [Fault; 3] = [Fault::BehindFront, Fault::FrontShort, Fault::FrontLong];

/// Every fault of a call; a refusal has no front that could be short.
fn faults(call: Call) -> Vec<Plant> {
    let mut all: Vec<Fault> = answer_bytes(call).into_iter().map(Fault::AnswerByte).collect();
    if lends(call) {
        all.extend([0, 7, 15, 16, 17, 19].map(Fault::LentByte));
        all.extend([0, 8, 15].map(Fault::LentByteFromEnd));
        if !matches!(call, Call::ReadPacket | Call::ReadCapture) {
            all.extend([16, 17, 20].map(Fault::LentByteFromEnd));
        }
    }
    if matches!(call, Call::CopyPath | Call::ReversePath) {
        all.extend(FRONT_FAULTS);
    }
    let ways: &[bool] = if is_plain(call) { &[true] } else { &[true, false] };
    let plant = |(fault, accepted): (&Fault, &bool)| Plant { call, accepted: *accepted, fault: *fault };
    let plants = all.iter().flat_map(|fault| ways.iter().map(move |way| plant((fault, way))));
    plants.filter(|plant| plant.accepted || plant.fault != Fault::FrontShort).collect()
}

/// A short run that makes every call, accepted and refused; packets also as short captures.
fn short_run(checker: &mut Checker) {
    let mut random = Random::new(5);
    let path = shapes::path_of(&mut random, [2, 2, 0], Pointers::Anywhere);
    for (path_type, length) in [(1, path.len()), (1, path.len() - 1), (2, path.len())] {
        paths::every_call(checker, &mut random, Input { path_type, bytes: &path[..length] }, true);
    }
    for _ in 0..20 {
        packets::random_packet(checker, &mut random);
        writing::random_headers(checker, &mut random);
        records::random_record(checker, &mut random);
    }
}

/// Event lists alone.
fn event_run(checker: &mut Checker) {
    let mut random = Random::new(6);
    for _ in 0..200 {
        events::random_list(checker, &mut random);
        if checker.is_done() {
            return;
        }
    }
}

/// Where the expiry of its record starts in the answer to a move, a walk or a turn.
const EXPIRY_AT: usize = offset_of!(PathAnswer, path.expiry);
const _: () = assert!(EXPIRY_AT == offset_of!(Walk, path.expiry) && EXPIRY_AT == offset_of!(WrittenPath, path.expiry));

/// Whether a run reports a fault.
fn is_reported(plant: Plant, run: fn(&mut Checker)) -> bool {
    let mut checker = Checker::planted(plant);
    run(&mut checker);
    checker.tally.differed > 0
}

/// The faults that event lists alone have to find: the number of an answer, the expiry in its record, every byte of a
/// path, how many moves a walk made, and where the path ends that a turn wrote.
fn event_faults() -> Vec<Plant> {
    let mut all = Vec::new();
    for call in [Call::Move, Call::Walk, Call::ReversePath] {
        let fault = |fault| Plant { call, accepted: true, fault };
        all.push(fault(Fault::AnswerByte(0)));
        all.extend((EXPIRY_AT..EXPIRY_AT + 8).map(|at| fault(Fault::AnswerByte(at))));
        all.extend((0..24).map(|at| fault(Fault::LentByte(at))));
        all.extend((0..12).map(|at| fault(Fault::LentByteFromEnd(at))));
    }
    all.push(Plant { call: Call::Walk, accepted: true, fault: Fault::AnswerByte(offset_of!(Walk, moves)) });
    let turn = |accepted, fault| Plant { call: Call::ReversePath, accepted, fault };
    let lengths = (0..8).map(|at| Fault::AnswerByte(offset_of!(WrittenPath, length) + at));
    all.extend(lengths.clone().chain(FRONT_FAULTS).map(|fault| turn(true, fault)));
    all.extend(lengths.map(|fault| turn(false, fault)));
    for call in [Call::Move, Call::ReversePath] {
        all.push(Plant { call, accepted: false, fault: Fault::AnswerByte(0) });
        all.push(Plant { call, accepted: false, fault: Fault::LentByte(2) });
    }
    all
}

/// Every call on paths of small shapes and of those beside 64 hop fields.
fn shape_run(checker: &mut Checker) {
    paths::every_shape(checker, &mut Random::new(7), 3);
}

/// Packets of every kind read, written again and replied to, and every byte of them changed.
fn packet_run(checker: &mut Checker) {
    packets::every_kind(checker, &mut Random::new(8));
}

/// Random packets alone.
fn random_packet_run(checker: &mut Checker) {
    let mut random = Random::new(12);
    for _ in 0..200 {
        packets::random_packet(checker, &mut random);
        if checker.is_done() {
            return;
        }
    }
}

/// Packets of every type and factor, over few bytes, just the factor's and those beside, and many.
fn factor_run(checker: &mut Checker) {
    packets::every_type_and_factor(checker, &mut Random::new(10));
}

/// Packets with every small path, good or not.
fn small_path_run(checker: &mut Checker) {
    packets::every_small_path(checker, &mut Random::new(11));
}

/// Headers of every kind made and written.
fn header_run(checker: &mut Checker) {
    writing::every_kind(checker, &mut Random::new(9));
}

/// The runs that have to tell a wrong rule from the right one. Event lists begin with paths that moves admit, so that
/// rules of refusal are not theirs to find; all of such a path lies ahead; and they ask no path for its interfaces and
/// no record for its time left. No packet has a padding in a host that is no service; those of every kind that are cut have
/// version 0, and all the bytes of a factor below 9; and their paths have good lengths and pointers, but for a byte.
fn runs_of(twist: Twist) -> &'static [fn(&mut Checker)] {
    match twist {
        Twist::SixtyFiveAreNotTooMany
        | Twist::PeeringOnOneIsFine
        | Twist::PeeringLinkIsNotCounted
        | Twist::OuterInterfacesAreCounted
        | Twist::PeeringOnOneIsALink
        | Twist::PeeringOnThreeIsALink
        | Twist::HopFieldIsRoundedDown
        | Twist::PeeringLinkIsTurned
        | Twist::PeeringLinkHasOneDirection
        | Twist::LargestIndexWrapsAround
        | Twist::ExpiryOfTheHopFieldsAhead => &[shape_run],
        Twist::LargestExpiryIsTooWide
        | Twist::OneMoreThanTheLargestExpiryIsNot
        | Twist::AnyExpiryIsTaken
        | Twist::LatestNowIsTooLate
        | Twist::AnyNowIsTaken
        | Twist::NoExpiryIsRefused
        | Twist::NothingIsLeftOnceItHasExpired => &[records::borders],
        Twist::EndHoldsTheWholeDestination => &[event_run],
        Twist::PaddingIsDropped
        | Twist::PaddingOfTheOtherHostIsRead
        | Twist::PaddingOfAnyHostIsRead
        | Twist::PaddingIsReadTurned => &[packet_run],
        Twist::PaddingOfAnyHostIsWritten => &[header_run],
        Twist::PaddingIsWrittenAsZero
        | Twist::PaddingOfTheOtherHostIsWritten
        | Twist::PaddingIsWrittenTurned
        | Twist::NewHeadersKeepThePadding => &[packet_run, header_run],
        Twist::ShortIsTestedBeforeTheVersion | Twist::ShortIsTestedBeforeTheFactor => &[factor_run],
        Twist::ShortIsTestedLast
        | Twist::JustEnoughIsCut
        | Twist::PayloadIsCountedAsHeader
        | Twist::CommonHeaderIsNotCounted
        | Twist::JustEnoughIsShort
        | Twist::ShortIsToldOnARefusal
        | Twist::ShortIsNeverTold
        | Twist::ShortCaptureIsRefused
        | Twist::AnyVersionIsAcceptable
        | Twist::FactorEightCountsAsNine
        | Twist::FactorNineIsNotAcceptable
        | Twist::ShortHeaderIsAcceptable
        | Twist::EmptyPathMayLeaveBytes
        | Twist::StandardPathMayLeaveBytes
        | Twist::StandardPathIsOpaque
        | Twist::OpaquePathHasBytes
        | Twist::PayloadMayLackAByte
        | Twist::PayloadEndsThePacket => &[packet_run, factor_run],
        Twist::LengthAfterZeroIsAcceptable
        | Twist::InfoPointerAtTheCountIsAcceptable
        | Twist::HopPointerAtTheCountIsAcceptable
        | Twist::HopPointerInAnySegmentIsAcceptable => &[small_path_run],
        Twist::EveryHostHasFourBytes | Twist::SourceIsAsLongAsTheDestination => &[packet_run, small_path_run],
        Twist::FiledWithoutPadding
        | Twist::FiledWithoutReserved
        | Twist::FiledWithoutKinds
        | Twist::FiledWithoutPath
        | Twist::FiledWithTheMetaHeaderAlone
        | Twist::FiledWithoutPayload
        | Twist::FiledWithAllThatFollows => &[packet_run, random_packet_run],
        _ => &[shape_run, event_run],
    }
}

/// How many wrong rules go unseen, by calls, by event lists, by packets and headers or by records made by hand.
fn missed_twists() -> usize {
    let mut missed = 0;
    for twist in TWISTS {
        model::twist(twist);
        for run in runs_of(twist) {
            let mut checker = Checker::stopping();
            run(&mut checker);
            if checker.tally.differed == 0 {
                println!("MISSED: {twist:?}");
                missed += 1;
            }
        }
    }
    model::twist(Twist::None);
    missed
}

/// Faults planted in what plain C answers and writes: how many, and how many of them the benchmark would not see.
fn plain_faults() -> (usize, usize) {
    let (mut count, mut missed) = (0, 0);
    let writes = [Call::ReversePath, Call::WriteNewHeaders];
    for call in plain::CALLS {
        let is_there = |plant: &Plant| matches!(plant.fault, Fault::AnswerByte(_)) || writes.contains(&call);
        for plant in faults(call).into_iter().filter(is_there) {
            count += 1;
            missed += report(plant, plain::held(Some(plant)).differed.is_some(), "the benchmark's plain C");
        }
    }
    (count, missed)
}

/// A word of an answer made wrong: its last digit another one.
fn other_word(word: &str) -> String {
    let (rest, last) = word.split_at(word.len() - 1);
    format!("{rest}{}", if last == "0" { "1" } else { "0" })
}

/// Faults planted in every word of every stored answer: how many, and how many of them a replay would not see.
fn stored_faults() -> (usize, usize) {
    let (mut count, mut missed) = (0, 0);
    for line in list::all_lines() {
        let Some((call, answer)) = line.split_once(" => ") else { continue };
        let words: Vec<&str> = answer.split(' ').collect();
        for at in 0..words.len() {
            let mut wrong: Vec<String> = words.iter().map(ToString::to_string).collect();
            wrong[at] = other_word(words[at]);
            count += 1;
            if !matches!(lines::verdict(&format!("{call} => {}", wrong.join(" "))), lines::Verdict::Differs { .. }) {
                println!("MISSED in word {at} of a stored answer: {line}");
                missed += 1;
            }
        }
    }
    (count, missed)
}

/// Plants every fault; whether all were reported, and none where none was planted.
pub fn run() -> bool {
    let mut clean = Checker::default();
    for run in [
        short_run,
        shape_run,
        event_run,
        packet_run,
        random_packet_run,
        factor_run,
        small_path_run,
        header_run,
        records::borders,
    ] {
        run(&mut clean);
    }
    println!("without a fault: {}", clean.tally.summary());
    let mut missed = 0;
    let mut count = 0;
    for call in CALLS {
        for plant in faults(call) {
            count += 1;
            missed += report(plant, is_reported(plant, short_run), "calls");
        }
    }
    for plant in event_faults() {
        count += 1;
        missed += report(plant, is_reported(plant, event_run), "event lists");
    }
    let twists = missed_twists();
    println!(
        "{} wrong rules of moving, of interfaces, of times, of arrivals, of padding, of short packets, of acceptance and of \
         filing, {twists} missed",
        TWISTS.len()
    );
    let (stored, stored_missed) = stored_faults();
    println!("planted {stored} faults in stored answers, {stored_missed} missed");
    let (plain, plain_missed) = plain_faults();
    println!("planted {plain} faults in plain C's answers, {plain_missed} missed");
    println!("planted {count} faults in the library's answers, {} reported, {missed} missed", count - missed);
    let is_clean = clean.tally.differed == 0 && plain::held(None).differed.is_none();
    missed + twists + stored_missed + plain_missed == 0 && is_clean
}

/// Prints a fault that went unseen; how many that makes.
fn report(plant: Plant, is_seen: bool, place: &str) -> usize {
    if !is_seen {
        println!("MISSED by {place}: {plant:?}");
    }
    usize::from(!is_seen)
}
