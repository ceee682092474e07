//! Paths compared: meta words, lengths round each border, every shape, random good paths and damaged ones.

use scion_proto::calls;

use crate::check::{Checker, Input};
use crate::model::Shape;
use crate::oracle::path::{LATEST_NOW, Oracle};
use crate::random::Random;
use crate::records;
use crate::shapes::{self, Lengths, Pointers};
use crate::tally::{Call, Source};

/// Indexes that are never there.
pub const FAR: [usize; 6] = [1 << 32, (1 << 63) - 1, 1 << 63, (1 << 63) + 1, usize::MAX - 1, usize::MAX];

/// More bytes than any path takes.
const ROOM: usize = 2400;

/// How many meta words go by until the Rust is asked again for an expiry that it has given already.
const ASKED_AGAIN: u64 = 251;

/// Reading alone, over meta words in a buffer that is long enough for all.
pub fn words(checker: &mut Checker, random: &mut Random, words: impl Iterator<Item = u32>, progress: u64) {
    let mut bytes = random.bytes(ROOM);
    let mut expiries = Expiries::default();
    let mut done = 0u64;
    for word in words {
        bytes[..4].copy_from_slice(&word.to_be_bytes());
        let oracle = expiries.known_to(word, Oracle::new(1, &bytes), done % ASKED_AGAIN == 0);
        compare_reading(checker, &bytes, &oracle);
        done += 1;
        if progress > 0 && done % progress == 0 {
            println!("    {done} meta words, {} differed", checker.tally.differed);
        }
    }
}

/// What the Rust gave as the expiry of paths of these lengths, 0 where it was not asked yet. Their fields are the same
/// bytes under every meta word, so that it need not be asked for each of them: the long run would take an hour more.
struct Expiries(Vec<u64>);

impl Default for Expiries {
    fn default() -> Self {
        Self(vec![0; 1 << 18])
    }
}

impl Expiries {
    /// A path's oracle, with the expiry where that is known; the Rust is asked where it is not, or where that is wanted.
    #[inline]
    fn known_to<'a>(&mut self, word: u32, oracle: Oracle<'a>, is_asked_again: bool) -> Oracle<'a> {
        let known = &mut self.0[word as usize & 0x3_ffff];
        if *known > 0 && !is_asked_again {
            return oracle.with_expiry(*known);
        }
        let expiry = oracle.record().expiry;
        assert!(expiry == 0 || *known == 0 || *known == expiry, "the Rust gives another expiry to the same fields");
        *known = expiry.max(*known);
        oracle
    }
}

/// Reading alone, of a standard path.
#[inline]
fn compare_reading(checker: &mut Checker, bytes: &[u8], oracle: &Oracle) {
    let mut ours = calls::read_path(1, bytes);
    let expected = oracle.read_path();
    crate::plant::answer(&checker.plant, Call::ReadPath, &mut ours);
    let words = || format!("type 1 bytes {}", crate::tally::hex(bytes));
    checker.tally.compare(Call::ReadPath, &ours, (&expected, Source::Rust), words);
}

/// Every pointer and length, or each `step`th: the reserved bits follow from the others and take every value.
pub fn words_of_lengths_and_pointers(step: usize) -> impl Iterator<Item = u32> {
    (0..1u32 << 26).step_by(step).map(|index| {
        let high = index >> 18 << 24;
        let lengths = index & 0x3_ffff;
        let reserved = (index ^ index >> 7 ^ index >> 19) & 63;
        high | reserved << 18 | lengths
    })
}

/// Each accepted triple of lengths, with one byte too few, just enough, and one more.
pub fn exact_lengths(checker: &mut Checker, random: &mut Random, step: usize) {
    let mut bytes = random.bytes(ROOM);
    for index in (0..1 << 18).step_by(step) {
        let lengths = [index >> 12, index >> 6 & 63, index & 63];
        bytes[..4].copy_from_slice(&shapes::meta(0, 0, 0, lengths));
        let length = shapes::shape(lengths).bytes();
        for length in length - 1..=length + 1 {
            compare_reading(checker, &bytes[..length], &Oracle::new(1, &bytes[..length]));
        }
    }
}

/// Meta bytes at the borders of document 01's rules.
pub const METAS: [[u8; 4]; 26] = [
    [0x00, 0x00, 0x20, 0x00],
    [0x02, 0x00, 0x20, 0x00],
    [0x40, 0x00, 0x20, 0x00],
    [0x42, 0x00, 0x20, 0x00],
    [0x00, 0x00, 0x20, 0x01],
    [0xc0, 0x00, 0x00, 0x00],
    [0xc0, 0x00, 0x10, 0x41],
    [0x02, 0x00, 0x20, 0x40],
    [0x42, 0x00, 0x20, 0x40],
    [0x00, 0x00, 0x00, 0x00],
    [0x00, 0x00, 0x00, 0x40],
    [0x00, 0x00, 0x00, 0x01],
    [0x80, 0x00, 0x20, 0x40],
    [0x80, 0x00, 0x10, 0x41],
    [0x01, 0x00, 0x20, 0x00],
    [0x43, 0x00, 0x20, 0x40],
    [0x41, 0x00, 0x20, 0x40],
    [0x82, 0x00, 0x10, 0x41],
    [0x81, 0x00, 0x10, 0x41],
    [0x42, 0x00, 0x10, 0x41],
    [0xc2, 0x00, 0x20, 0x01],
    [0xff, 0x03, 0xff, 0xff],
    [0x00, 0xfc, 0x20, 0x00],
    [0x00, 0x00, 0x10, 0x00],
    [0x00, 0x00, 0x10, 0x40],
    [0xff, 0xff, 0xff, 0xff],
];

/// No bytes at all, behind a pointer to nowhere: reading, a change in place, a destination; and written to a byte.
pub fn no_bytes(checker: &mut Checker) {
    for path_type in 0..=255 {
        let oracle = Oracle::new(path_type, &[]);
        let words = || format!("type {path_type}, no bytes");
        let (tally, model) = (&mut checker.tally, Source::Model);
        let expected = oracle.read_path();
        tally.compare(Call::ReadPath, &calls::read_path(path_type, &[]), (&expected, Source::Rust), words);
        let expected = oracle.hop_field(0);
        tally.compare(Call::HopField, &calls::hop_field(path_type, &[], 0), (&expected, oracle.source()), words);
        let expected = crate::model::single_move(&oracle, &mut []);
        tally.compare(Call::Move, &calls::single_move(path_type, &mut []), (&expected, model), words);
        let expected = crate::model::walk(&oracle, &mut [], 1);
        tally.compare(Call::Walk, &calls::walk(path_type, &mut [], 1), (&expected, model), words);
        let (expected, source) = oracle.copy_path(&mut []);
        tally.compare(Call::CopyPath, &calls::copy_path(path_type, &[], &mut []), (&expected, source), words);
        let (expected, source) = oracle.reverse_path(&mut []);
        tally.compare(Call::ReversePath, &calls::reverse_path(path_type, &[], &mut []), (&expected, source), words);
        let input = Input { path_type, bytes: &[] };
        let oracle = checker.read_path(input);
        checker.copy_path(input, &oracle, 1);
        checker.reverse_path(input, &oracle, 1);
    }
}

/// Every buffer length from 0 to 80 under each of these meta bytes and several types.
pub fn short_buffers(checker: &mut Checker, random: &mut Random) {
    for meta in METAS {
        let mut bytes = random.bytes(80);
        bytes[..4].copy_from_slice(&meta);
        for length in 0..=bytes.len() {
            for path_type in [0, 1, 2, 7, 255] {
                let input = Input { path_type, bytes: &bytes[..length] };
                every_call(checker, random, input, false);
            }
        }
        if checker.is_done() {
            return;
        }
    }
}

/// Every call with every index, size and limit, on paths of the border lengths and of all small ones.
pub fn every_shape(checker: &mut Checker, random: &mut Random, most: usize) {
    for lengths in small_lengths(most).into_iter().chain(shapes::BORDERS) {
        for pointers in [Pointers::Start, Pointers::Anywhere, Pointers::Last] {
            let bytes = shapes::path_of(random, lengths, pointers);
            every_size(checker, random, &bytes);
            if checker.is_done() {
                return;
            }
        }
        every_peering(checker, random, lengths);
    }
}

/// All lengths up to `most` of 1 to 3 segments.
fn small_lengths(most: usize) -> Vec<Lengths> {
    let mut all = Vec::new();
    for first in 1..=most {
        all.push([first, 0, 0]);
        for second in 1..=most {
            all.push([first, second, 0]);
            all.extend((1..=most).map(|third| [first, second, third]));
        }
    }
    all
}

/// A path with a byte missing, whole, and with bytes after it, which are other ones than a destination holds; and the
/// same bytes under other types.
fn every_size(checker: &mut Checker, random: &mut Random, path: &[u8]) {
    let mut longer = path.to_vec();
    longer.extend([0x77, 0x78, 0x79]);
    for length in [path.len() - 1, path.len(), path.len() + 1, path.len() + 3] {
        every_call(checker, random, Input { path_type: 1, bytes: &longer[..length] }, true);
    }
    for path_type in [0, 2, 7, 255] {
        every_call(checker, random, Input { path_type, bytes: path }, true);
    }
    for index in [0, 1, 70] {
        crate::results::agree(checker, Input { path_type: 1, bytes: &longer }, index);
        crate::results::agree(checker, Input { path_type: 1, bytes: path }, index);
        crate::results::agree(checker, Input { path_type: 2, bytes: path }, index);
    }
}

/// Interfaces, moves and walks under each combination of direction and peering bits.
fn every_peering(checker: &mut Checker, random: &mut Random, lengths: Lengths) {
    let mut bytes = shapes::path_of(random, lengths, Pointers::Start);
    let shape = shapes::shape(lengths);
    for bits in 0..1 << (2 * shape.info_fields) {
        for k in 0..shape.info_fields {
            let at = shape.info_at(k);
            bytes[at] = bytes[at] & !3 | (bits >> (2 * k) & 3) as u8;
        }
        let input = Input { path_type: 1, bytes: &bytes };
        let oracle = checker.read_path(input);
        every_interface(checker, random, input, &oracle, true);
        every_move(checker, &bytes, &shape);
    }
}

/// Moves one by one from the start to the end, and walks of any limit from there.
fn every_move(checker: &mut Checker, bytes: &[u8], shape: &Shape) {
    let mut at = bytes.to_vec();
    for _ in 0..shape.hop_fields.min(65) {
        let input = Input { path_type: 1, bytes: &at };
        let oracle = checker.read_path(input);
        checker.single_move(input, &oracle);
        for limit in [0, 1, 2, shape.hop_fields, usize::MAX] {
            checker.walk(input, &oracle, limit);
        }
        let mut next = at.clone();
        crate::model::single_move(&oracle, &mut next);
        at = next;
    }
}

/// The numbers of info fields and hop fields of a path that was read; zero for others.
fn counts(oracle: &Oracle) -> (usize, usize) {
    let shape = Shape::of(&oracle.record());
    if oracle.standard().is_ok() { (shape.info_fields, shape.hop_fields) } else { (0, 0) }
}

/// All the calls on a path: with every index, size and limit, or with a few.
pub fn every_call(checker: &mut Checker, random: &mut Random, input: Input, thorough: bool) {
    let oracle = checker.read_path(input);
    let (info_fields, hop_fields) = counts(&oracle);
    for index in some_indexes(random, info_fields, thorough) {
        checker.info_field(input, &oracle, index);
        checker.segment(input, &oracle, index);
        checker.segment_expiry(input, &oracle, index);
        if thorough || random.once_in(4) {
            checker.run_of_hop_fields(input, &oracle, index, random.next());
        }
    }
    for index in some_indexes(random, hop_fields, thorough) {
        checker.hop_field(input, &oracle, index);
        every_alert(checker, random, input, &oracle, index, thorough);
    }
    every_time(checker, random, input, &oracle, thorough);
    every_interface(checker, random, input, &oracle, thorough);
    every_destination(checker, random, input, &oracle, thorough);
    every_limit(checker, random, input, &oracle, thorough);
}

/// Indexes from 0 to three past the count and ones far beyond, or a few of them.
fn some_indexes(random: &mut Random, count: usize, thorough: bool) -> Vec<usize> {
    if thorough {
        return (0..=count + 3).chain(FAR).collect();
    }
    let far = if random.flip() { random.pick(&FAR) } else { count + random.below(4) };
    vec![random.below(count + 1), far]
}

/// The alert flags of a hop field, set and cleared.
fn every_alert(
    checker: &mut Checker,
    random: &mut Random,
    input: Input,
    oracle: &Oracle,
    index: usize,
    thorough: bool,
) {
    if thorough {
        for (is_ingress, on) in [(false, false), (false, true), (true, false), (true, true)] {
            checker.set_alert(input, oracle, index, is_ingress, on);
        }
        return;
    }
    checker.set_alert(input, oracle, index, random.flip(), random.flip());
}

/// Expiry, and the time left at the borders of now.
fn every_time(checker: &mut Checker, random: &mut Random, input: Input, oracle: &Oracle, thorough: bool) {
    checker.expiry(input, oracle);
    let nows = records::nows(oracle.expiry().ms);
    if thorough {
        for now in nows {
            checker.time_left(input, oracle, now);
        }
        return;
    }
    checker.time_left(input, oracle, random.pick(&nows));
    checker.time_left(input, oracle, random.next() % (LATEST_NOW + 2));
}

/// The count of interfaces, and interfaces below and beyond it.
fn every_interface(checker: &mut Checker, random: &mut Random, input: Input, oracle: &Oracle, thorough: bool) {
    checker.interfaces_count(input, oracle);
    for index in some_indexes(random, oracle.interfaces_count().0.count, thorough) {
        checker.interface(input, oracle, index);
    }
}

/// Copies and turns into destinations of the exact size, of sizes beside it, and longer ones.
fn every_destination(checker: &mut Checker, random: &mut Random, input: Input, oracle: &Oracle, thorough: bool) {
    let exact = oracle.length();
    let sizes = shapes::sizes(exact).into_iter().chain([input.bytes.len(), 4]);
    if thorough {
        for size in sizes {
            checker.copy_path(input, oracle, size);
            checker.reverse_path(input, oracle, size);
        }
        return;
    }
    checker.copy_path(input, oracle, exact);
    checker.reverse_path(input, oracle, exact);
    if random.once_in(4) {
        let any: Vec<usize> = sizes.chain([random.below(shapes::DRIVER_BUFFER)]).collect();
        checker.copy_path(input, oracle, random.pick(&any));
        checker.reverse_path(input, oracle, random.pick(&any));
    }
}

/// A single move, and walks of any limit.
fn every_limit(checker: &mut Checker, random: &mut Random, input: Input, oracle: &Oracle, thorough: bool) {
    checker.single_move(input, oracle);
    let (_, hop_fields) = counts(oracle);
    if thorough {
        for limit in (0..=hop_fields + 1).chain(FAR) {
            checker.walk(input, oracle, limit);
        }
        return;
    }
    checker.walk(input, oracle, random.below(hop_fields + 2));
    checker.walk(input, oracle, random.pick(&[0, 1, hop_fields, 1 << 32, usize::MAX]));
}

/// Every flag byte and every expiry byte of one hop field and one info field.
pub fn every_byte(checker: &mut Checker, random: &mut Random) {
    let mut bytes = shapes::path_of(random, [2, 1, 0], Pointers::Start);
    for place in [4, 12, 20, 21, 32, 33, 44, 45] {
        let kept = bytes[place];
        for byte in 0..=255 {
            bytes[place] = byte;
            every_call(checker, random, Input { path_type: 1, bytes: &bytes }, byte % 16 == 0);
        }
        bytes[place] = kept;
    }
    for path_type in 0..=255 {
        every_call(checker, random, Input { path_type, bytes: &bytes }, false);
    }
    for first in 0..=255 {
        bytes[0] = first;
        every_call(checker, random, Input { path_type: 1, bytes: &bytes }, false);
    }
}

/// A random path: good, with bytes after it, or damaged; mostly a standard one.
pub fn random_path(checker: &mut Checker, random: &mut Random) {
    let mut bytes = shapes::path(random);
    match random.below(8) {
        0..4 => {}
        4 => {
            let more = random.between(1, 30);
            bytes.extend(random.bytes(more));
        }
        _ => shapes::damage(random, &mut bytes, 4),
    }
    let path_type = if random.once_in(12) { random.pick(&[0, 2, 3, 7, 255]) } else { 1 };
    let thorough = random.once_in(400) && bytes.len() < 500;
    every_call(checker, random, Input { path_type, bytes: &bytes }, thorough);
}
