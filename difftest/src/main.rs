//! The differential run: the Rust source, built unchanged, against the static library called over C.

mod bench;
mod check;
mod events;
mod filed;
mod lent;
mod lines;
mod list;
mod model;
mod oracle;
mod packets;
mod paths;
mod plain;
mod plant;
mod random;
mod records;
mod results;
mod samples;
mod selftest;
mod shapes;
mod tally;
mod writing;

use std::process::ExitCode;
use std::time::Instant;

use check::Checker;
use random::Random;

/// How much is run.
struct Size {
    /// About how many random calls; those on the records that they hand back come on top.
    calls: u64,
    /// Which meta words are read: `all`, `each` pointer and length, or a `few` of these.
    words: String,
    /// The seed of all that is random.
    seed: u64,
}

/// The word after the last mention of a name among the arguments.
fn option(name: &str) -> Option<String> {
    let arguments: Vec<String> = std::env::args().collect();
    let at = arguments.iter().rposition(|argument| argument == name)?;
    arguments.get(at + 1).cloned()
}

/// A number after its name among the arguments.
fn number(name: &str, otherwise: u64) -> u64 {
    option(name).map_or(otherwise, |word| word.replace('_', "").parse().expect("a number"))
}

/// One part of a run, with a line on how it went.
fn part(checker: &mut Checker, name: &str, run: impl FnOnce(&mut Checker)) {
    let (before, start) = (checker.tally.compared(), Instant::now());
    run(checker);
    let calls = checker.tally.compared() - before;
    println!(
        "  {name}: {calls} calls, {:.1} s, {} differed so far",
        start.elapsed().as_secs_f64(),
        checker.tally.differed
    );
}

/// A random part, until about so many calls on bytes or headers have been compared.
fn random_part(checker: &mut Checker, name: &str, calls: u64, mut one: impl FnMut(&mut Checker)) {
    part(checker, name, |checker| {
        let (start, first) = (checker.tally.compared(), checker.tally.compared_of_bytes());
        let mut shown = start;
        while checker.tally.compared_of_bytes() - first < calls {
            one(checker);
            let now = checker.tally.compared();
            if now - shown > 20_000_000 {
                shown = now;
                println!("    {name}: {} calls, {} differed", now - start, checker.tally.differed);
            }
        }
    });
}

/// What is run whole: every border, kind, type, factor and set of faults.
fn run_borders(checker: &mut Checker, random: &mut Random) {
    part(checker, "records made by hand", records::borders);
    part(checker, "no bytes", paths::no_bytes);
    part(checker, "short buffers", |checker| paths::short_buffers(checker, random));
    part(checker, "paths of every shape", |checker| paths::every_shape(checker, random, 3));
    part(checker, "paths with every byte", |checker| paths::every_byte(checker, random));
    part(checker, "packets of every kind", |checker| packets::every_kind(checker, random));
    part(checker, "packets of every type and factor", |checker| packets::every_type_and_factor(checker, random));
    part(checker, "packets of every sort of meta header", |checker| packets::every_meta(checker, random));
    part(checker, "packets of every small path", |checker| packets::every_small_path(checker, random));
    part(checker, "packets of every padding", |checker| packets::every_padding(checker, random));
    part(checker, "packets cut at every byte", |checker| packets::every_cut(checker, random));
    part(checker, "largest packets", |checker| packets::largest(checker, random));
    part(checker, "headers of every kind", |checker| writing::every_kind(checker, random));
    part(checker, "headers of every length", |checker| writing::every_length(checker, random));
    part(checker, "headers of every value", |checker| writing::every_value(checker, random));
    part(checker, "headers with every set of faults", |checker| writing::every_fault(checker, random));
}

/// Meta words, and each triple of lengths with just enough bytes and one beside.
fn run_words(checker: &mut Checker, random: &mut Random, which: &str) {
    let step = if which == "few" { 61 } else { 1 };
    part(checker, "exact lengths", |checker| paths::exact_lengths(checker, random, step));
    part(checker, "meta words", |checker| match which {
        "all" => paths::words(checker, random, 0..=u32::MAX, 1 << 28),
        "each" => paths::words(checker, random, paths::words_of_lengths_and_pointers(1), 0),
        _ => paths::words(checker, random, paths::words_of_lengths_and_pointers(61), 0),
    });
}

/// Everything that is compared; whether the Rust gives the answers worked out by hand.
fn run(checker: &mut Checker, size: &Size) -> bool {
    let mut random = Random::new(size.seed);
    let is_as_worked = samples::run(checker);
    run_borders(checker, &mut random);
    run_words(checker, &mut random, &size.words);
    part(checker, "random records", |checker| {
        (0..size.calls / 30).for_each(|_| records::random_record(checker, &mut random));
    });
    random_part(checker, "event lists", size.calls / 10, |checker| events::random_list(checker, &mut random));
    random_part(checker, "random headers", size.calls / 10, |checker| writing::random_headers(checker, &mut random));
    random_part(checker, "random packets", size.calls / 5, |checker| packets::random_packet(checker, &mut random));
    random_part(checker, "random paths", size.calls / 5 * 3, |checker| paths::random_path(checker, &mut random));
    is_as_worked
}

/// Which build of the Rust this is.
fn profile() -> &'static str {
    if cfg!(debug_assertions) { "debug" } else { "release" }
}

/// A run, its tables, its differences and its last line; whether nothing differed.
fn compare() -> bool {
    let size = Size {
        calls: number("--calls", 1_000_000),
        words: option("--words").unwrap_or_else(|| String::from("few")),
        seed: number("--seed", 1),
    };
    let profile = profile();
    println!("{profile} build of the Rust, seed {}, {} random calls, {} meta words", size.seed, size.calls, size.words);
    let mut checker = Checker::default();
    let is_as_worked = run(&mut checker, &size);
    println!("{}", checker.tally.tables());
    for difference in checker.tally.differences() {
        println!("{difference}");
    }
    println!("{profile}: {}", checker.tally.summary());
    is_as_worked && checker.tally.differed == 0
}

/// Compares the answers stored in the files named by the arguments with the Rust's; whether none differs.
fn replay() -> bool {
    let mut replayed = lines::Replayed::default();
    for file in std::env::args().skip(2) {
        lines::replay(&std::fs::read_to_string(&file).expect("a file of lines"), &mut replayed);
    }
    println!("exceptions\n{}", replayed.tally.exceptions_table());
    println!(
        "{}: stored answers: {} ({} by the Rust, {} by document 01's model), {} differed, {} under exceptions; {} can't be asked",
        profile(),
        replayed.by_rust + replayed.by_model,
        replayed.by_rust,
        replayed.by_model,
        replayed.differed,
        replayed.tally.excepted(),
        replayed.unasked
    );
    replayed.differed == 0
}

fn main() -> ExitCode {
    oracle::quiet_expected_panics();
    let mode = std::env::args().nth(1).unwrap_or_default();
    let is_fine = match mode.as_str() {
        "compare" => compare(),
        "selftest" => selftest::run(),
        "replay" => replay(),
        "list" => list::run(&std::env::args().nth(2).expect("a folder")),
        "bench" => bench::run(),
        "rows" => bench::names(),
        "count" => {
            let word = |k| std::env::args().nth(k).expect("count ROW SIDE TIMES");
            bench::count(word(2).parse().expect("a row"), &word(3), word(4).parse().expect("a number"))
        }
        _ => {
            eprintln!("difftest: compare, selftest, replay, list, bench, rows, count");
            false
        }
    };
    if is_fine { ExitCode::SUCCESS } else { ExitCode::FAILURE }
}
