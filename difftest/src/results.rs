//! The wrapper's results held against the whole answers that they are made of.

use scion_proto::{Answered, MAX_EXPIRY, MAX_NOW, Path, Refusal, Written, calls};

use crate::check::{Checker, Input};
use crate::shapes;
use crate::tally::{Call, hex};

/// Compares a result with a whole answer, and the value taken from it.
fn same<T: Answered, V: PartialEq + std::fmt::Debug>(
    checker: &mut Checker,
    call: Call,
    input: Input,
    result: Result<V, Refusal>,
    whole: T,
    value: impl FnOnce(T) -> V,
) {
    let answer = whole.answer();
    let expected = match answer.number {
        0 => Ok(value(whole)),
        number => Err(Refusal { number, value: answer.value }),
    };
    let words = || format!("result, type {} bytes {}", input.path_type, hex(input.bytes));
    checker.tally.values(call, &result, &expected, words);
}

/// Every call on a path and on its record, as a result and whole.
pub fn agree(checker: &mut Checker, input: Input, index: usize) {
    let Input { path_type: kind, bytes } = input;
    let mut one = bytes.to_vec();
    let mut two = bytes.to_vec();
    let c = checker;
    same(c, Call::ReadPath, input, scion_proto::read_path(kind, bytes), calls::read_path(kind, bytes), |w| w);
    same(
        c,
        Call::InfoField,
        input,
        scion_proto::info_field(kind, bytes, index),
        calls::info_field(kind, bytes, index),
        |w| w,
    );
    same(
        c,
        Call::HopField,
        input,
        scion_proto::hop_field(kind, bytes, index),
        calls::hop_field(kind, bytes, index),
        |w| w,
    );
    same(c, Call::Segment, input, scion_proto::segment(kind, bytes, index), calls::segment(kind, bytes, index), |w| w);
    let whole = calls::segment_expiry(kind, bytes, index);
    same(c, Call::SegmentExpiry, input, scion_proto::segment_expiry(kind, bytes, index), whole, |w| w.ms);
    same(c, Call::Expiry, input, scion_proto::expiry(kind, bytes), calls::expiry(kind, bytes), |w| w.ms);
    same(c, Call::TimeLeft, input, scion_proto::time_left(kind, bytes, 7), calls::time_left(kind, bytes, 7), |w| w.ms);
    let whole = calls::interfaces_count(kind, bytes);
    same(c, Call::InterfacesCount, input, scion_proto::interfaces_count(kind, bytes), whole, |w| w.count);
    same(
        c,
        Call::Interface,
        input,
        scion_proto::interface(kind, bytes, index),
        calls::interface(kind, bytes, index),
        |w| w,
    );
    let whole = calls::set_ingress_router_alert(kind, &mut one, index, true);
    same(
        c,
        Call::SetIngressAlert,
        input,
        scion_proto::set_ingress_router_alert(kind, &mut two, index, true),
        whole,
        |w| w.path,
    );
    let whole = calls::set_egress_router_alert(kind, &mut one, index, true);
    same(
        c,
        Call::SetEgressAlert,
        input,
        scion_proto::set_egress_router_alert(kind, &mut two, index, true),
        whole,
        |w| w.path,
    );
    let whole = calls::single_move(kind, &mut one);
    same(c, Call::Move, input, scion_proto::single_move(kind, &mut two), whole, |w| w.path);
    let whole = calls::walk(kind, &mut one, index);
    same(c, Call::Walk, input, scion_proto::walk(kind, &mut two, index), whole, |w| w);
    c.tally.bytes(Call::Walk, &two, &one, || format!("results, type {kind} bytes {}", hex(bytes)));
    for size in shapes::sizes(calls::read_path(kind, bytes).length) {
        let mut one = vec![0xee; size];
        let mut two = one.clone();
        let whole = calls::copy_path(kind, bytes, &mut one);
        same(c, Call::CopyPath, input, scion_proto::copy_path(kind, bytes, &mut two), whole, |w| Written {
            path: w.path,
            bytes: &mut one[..w.length],
        });
        let whole = calls::reverse_path(kind, bytes, &mut one);
        same(c, Call::ReversePath, input, scion_proto::reverse_path(kind, bytes, &mut two), whole, |w| Written {
            path: w.path,
            bytes: &mut one[..w.length],
        });
        c.tally.bytes(Call::ReversePath, &two, &one, || format!("results, type {kind} bytes {}", hex(bytes)));
    }
    packets_agree(c, bytes);
    let record = calls::read_path(kind, bytes).path;
    for record in [record, Path { expiry: MAX_EXPIRY, ..record }, Path { expiry: MAX_EXPIRY + 1, ..record }] {
        let words = || format!("result, {record:?}");
        c.tally.values(Call::RecordExpiry, &record.expiry_time(), &calls::record_expiry(record), words);
        for now in [7, MAX_NOW, MAX_NOW + 1] {
            let whole = calls::record_time_left(record, now);
            same(c, Call::RecordTimeLeft, input, record.time_left(now), whole, |w| w.ms);
        }
    }
}

/// Both readings of a packet, as a result and whole.
pub fn packets_agree(checker: &mut Checker, bytes: &[u8]) {
    let input = Input { path_type: 0, bytes };
    same(checker, Call::ReadPacket, input, scion_proto::read_packet(bytes), calls::read_packet(bytes), |w| w);
    same(checker, Call::ReadCapture, input, scion_proto::read_capture(bytes), calls::read_capture(bytes), |w| w);
}
